# Shared by the scripts of this folder: where things are, and how two programs are compared.
# shellcheck shell=bash

here=$(cd "$(dirname "${BASH_SOURCE[0]}")" && pwd)
target=$(cd "$here/../.." && pwd)/target/oracle
# Read by the scripts that source this file.
# shellcheck disable=SC2034
compiler=(rustc --edition 2024 -C opt-level=3 -C codegen-units=1 -L "$target/lib")

piece_lines=50000
shown_differences=5

usage() {
    echo "usage: $*" >&2
    exit 2
}

# run_piece JUDGE PROGRAM NAME COUNT SEED FROM SHOW: the number of differing answers in one piece of lines.
# A program that ends with an error has one more line there.
run_piece() {
    "$target/gen" "$3" "$4" "$5" --from "$6" --unreadable 1 >"$scratch/input" &&
        "$1" <"$scratch/input" >"$scratch/expected" &&
        { "$2" <"$scratch/input" >"$scratch/actual" || echo "ended with status $?" >>"$scratch/actual"; } &&
        "$target/differences" "$scratch/input" "$scratch/expected" "$scratch/actual" "$7"
}

# compare_name JUDGE PROGRAM COUNT SEED NAME: false where an answer differs.
compare_name() {
    local from=0 differences=0 found lines
    while [ "$from" -lt "$3" ]; do
        lines=$(($3 - from < piece_lines ? $3 - from : piece_lines))
        found=$(run_piece "$1" "$2" "$5" "$lines" "$4" "$from" \
            $((differences < shown_differences ? shown_differences - differences : 0))) || return
        differences=$((differences + found))
        from=$((from + lines))
    done
    echo "$5: $3 lines, $differences differences"
    [ "$differences" -eq 0 ]
}

# compare_names JUDGE PROGRAM COUNT SEED NAME..: every name, in a temporary folder that is removed at the end.
compare_names() {
    local judge=$1 program=$2 count=$3 seed=$4 name status=0
    scratch=$(mktemp -d)
    trap 'rm -rf "$scratch"' EXIT
    for name in "${@:5}"; do
        compare_name "$judge" "$program" "$count" "$seed" "$name" || status=1
    done
    return $status
}
