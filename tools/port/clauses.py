#!/usr/bin/env python3
"""Writes into lemmas the impossible cases that a check asks for.

usage: clauses.py OUTPUT

OUTPUT is a file with what `rt check` printed, run in the crate's folder, where this runs too. Below an error that ends in
`write the clauses` stand the cases: they go behind the last case of that lemma. Check again, and run it again, until it prints nothing.
"""

import re
import sys

ERROR = re.compile(r"^(?:so far: )?(\S+\.antt):(\d+):(\d+): error: `([^`]+)`.*write the clauses|^(?:so far: )?(\S+\.antt):(\d+):(\d+): error: `([^`]+)`: no clause covers")


def main():
    lines = open(sys.argv[1], encoding="utf-8").read().split("\n")
    todo = {}
    i = 0
    while i < len(lines):
        m = ERROR.match(lines[i])
        if not m:
            i += 1
            continue
        path, row, name = (m[1], m[2], m[4]) if m[1] else (m[5], m[6], m[8])
        i += 1
        cases = []
        while i < len(lines) and lines[i].startswith("  "):
            if re.match(r"\S+ .*= ", lines[i].strip()) and lines[i].strip().endswith("[ ]"):
                cases.append(lines[i].strip())
                name = cases[0].split()[0]
            elif cases and lines[i].startswith("   "):
                cases[-1] += " " + lines[i].strip()
            i += 1
        if cases and all(not c.rstrip().endswith("?") for c in cases):
            todo.setdefault(path, {})[(int(row), name)] = cases
        else:
            print(f"left: {path}:{row}: {name}: {cases[:3]}")
    for path, each in todo.items():
        text = open(path, encoding="utf-8").read().split("\n")
        for (row, name), cases in sorted(each.items(), reverse=True):
            at = row - 1
            pad = re.match(r" *", text[at])[0]
            eq = re.compile(re.escape(pad) + re.escape(name) + r"(?=[\s])")
            last, j = at, at + 1
            while j < len(text):
                if eq.match(text[j]):
                    last = j
                elif text[j].strip() and not text[j].startswith(pad + " ") and not text[j].startswith(pad + "unfolding"):
                    break
                elif not text[j].strip() and last > at:
                    k = j
                    while k < len(text) and not text[k].strip():
                        k += 1
                    if k >= len(text) or not (eq.match(text[k]) or text[k].startswith(pad + " ")):
                        break
                j += 1
            j = last + 1
            while True:
                k = j
                while k < len(text) and not text[k].strip():
                    k += 1
                if k < len(text) and text[k].startswith(pad + " "):
                    j = k + 1
                else:
                    break
            text[j:j] = [pad + c for c in cases]
            print(f"{path}:{row}: {name}: {len(cases)}")
        open(path, "w", encoding="utf-8").write("\n".join(text))


main()
