#!/usr/bin/env python3
"""Writes the repository's own words of antt in snake case, as today's Rattle spells them: slotOk becomes slot_ok.

usage: respell.py [--check]

Run it at the top of the repository, once, behind the toolchain's port.py and before any edit by hand. It changes the words in the
.antt files of crates/ and, in the .rt files, those in clauses, in `ghost use` items and in comments. A word is a name, or a part of a
name between dashes, that begins with a small letter, has a capital and has no underscore. Types, facts, modules and the logic's own
names begin with a capital or have an underscore, so they stay; code, strings, inputs and outputs have no such word.

KEPT has the words whose plain spelling is a field's name, and LEMMAS the lemmas that would bear a word's name, each with its new one.
--check writes nothing and prints each word with its new spelling, and those that fall together with another name.
"""

import os
import re
import sys

KEPT = {"logScale": "on_log_scale"}
LEMMAS = {
    "history_view/proofs/Usable.antt": ["slot_ok"],
    "history_view/proofs/Values.antt": ["same_bits"],
    "sampler_laws/proofs/Changes.antt": ["same_bits"],
    "sampler_laws/proofs/Nothing.antt": ["stored_ok", "fit_of"],
    "sampler_laws/proofs/OneTrial.antt": ["stored_ok"],
    "text_laws/proofs/Cases.antt": ["row_words"],
    "text_laws/proofs/LineWords.antt": ["is_word"],
}
WORD = re.compile(r"(?<![\w'₀-₉])[a-z][a-z0-9']*(?:[A-Z][A-Za-z0-9']*)(?![\w'₀-₉])")
HUMP = re.compile(r"(?<=[a-z0-9'])(?=[A-Z])")


def snake(word):
    return KEPT.get(word) or HUMP.sub("_", word).lower()


def files():
    for folder, dirs, names in os.walk("crates"):
        dirs[:] = sorted(d for d in dirs if d != "out")
        for name in sorted(names):
            if name.endswith((".antt", ".rt")):
                yield os.path.join(folder, name)


def read(path):
    with open(path, encoding="utf-8") as f:
        return f.read()


def main():
    check = sys.argv[1:] == ["--check"]
    if sys.argv[1:] and not check:
        raise SystemExit(__doc__)
    if not os.path.isdir("crates"):
        raise SystemExit("respell: run it at the top of the repository")
    found, names = {}, {}
    for path in files():
        text = read(path)
        if check:
            for word in WORD.findall(text):
                found.setdefault(word, set()).add(path)
            for name in re.findall(r"(?<![\w'])[a-z][\w']*", text):
                names.setdefault(name, set()).add(path)
            continue
        new = text
        for lemma in LEMMAS.get(path[len("crates/") :], []):
            new = re.sub(rf"(?<![\w'.-]){lemma}(?![\w'-])", lemma + "_lem", new)
        new = WORD.sub(lambda m: snake(m[0]), new)
        if new != text:
            with open(path, "w", encoding="utf-8") as f:
                f.write(new)
    if check:
        back = {}
        for word in sorted(found):
            back.setdefault(snake(word), []).append(word)
            print(word, snake(word))
        for new, old in sorted(back.items()):
            if len(old) > 1:
                print("together:", new, *old)
            if new in names:
                print("taken:", new, *sorted(p[7:] for p in names[new])[:6])


main()
