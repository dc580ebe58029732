#!/usr/bin/env python3
"""Turns a crate's Proof.antt files, which name each step by its place, into Invariants.antt and Answers.antt, which name it by its source.

usage: answers.py CRATE NAMES

CRATE is the folder of a crate, NAMES the names.json that `rt check --generated DIR --old-names` writes there. A Proof.antt that ends in
`tie.close` is taken apart: its invariants and measures go to Invariants.antt, its answers and the lemmas that they cite to Answers.antt.
An answer that is `search rules` alone goes, since the check tries that itself. It prints what it could not turn.
"""

import difflib
import json
import os
import re
import sys

NAME = r"[^\s(){}\[\].,;:@\"]+"
PATH = re.compile(r"(?<![\w.'₀-₉-])([a-z][\w'₀-₉]*)((?:\.[^\s(){}\[\].,;:@\"]+)+|(?![\w'₀-₉.-]))")
NEGATED = re.compile(r"not-(?:true|false)\s+(\((?:[^()]|\((?:[^()]|\([^()]*\))*\))*\)|[^\s()]+)\s+(c\.[^\s,()]+\.(?:true|false))(?![\w-])")


FIELD = re.compile(r"\.([a-z0-9]+(?:-[a-z0-9]+)+)(?![\w-])")
FIELDS = set()


def flat(name):
    """A name as all spellings of it agree: port.py writes a part of a path now and then as another name of std's."""
    low = name.replace("-", "_").lower()
    low = low[:-4] if low.endswith("_lem") else low
    return re.sub(r"_(?=\d+$)", "", low)


class Function:
    def __init__(self, data):
        self.places = data["places"]
        self.new_places = data["places_by_name"]
        self.arms = data["arms"]
        self.needs = data["needs"]
        self.asked = data["asked_at"]
        self.loops = data["loops"]
        self.changed = data["changed"]
        self.typed = data["typed"]
        self.index = {}
        for i, p in enumerate(self.places):
            self.index.setdefault(flat(p[0]), i)

    def parent(self, i):
        above = self.places[i][1]
        return None if above is None else self.index[flat(above)]

    def loop_name(self, old):
        for (was, now), names in self.loops:
            if flat(was) == flat(old):
                return now
        return None


def blocks(text):
    """The file's use lines, and its declarations as (comment, lines)."""
    uses, out, comment, now, blank = [], [], [], None, False
    for line in text.split("\n"):
        if line.startswith("use "):
            uses.append(line)
            now = None
        elif line.startswith("--"):
            now = None
            comment.append(line)
        elif not line.strip():
            blank = True
            continue
        elif line[0] in " \t" or (now is not None and (line.startswith("unfolding ") or is_equation(line, now))):
            if now is None:
                now = [line]
                out.append((comment, now))
                comment = []
            else:
                now += [""] * blank + [line]
        else:
            now = [line]
            out.append((comment, now))
            comment = []
        blank = False
    return uses, comment, out


def declared(lines):
    m = re.match(r"(?:(?:abbrev|unfoldable|pub) )*(\S+) :", lines[0])
    return m[1] if m else None


def is_equation(line, lines):
    name = declared(lines)
    return name is not None and re.match(re.escape(name) + r"(?=[\s=])", line) is not None


class Turn:
    def __init__(self, f, said):
        self.f, self.said, self.used = f, said, set()

    def place_of(self, start, n):
        at = start
        for _ in range(n):
            above = self.f.parent(at)
            if above is None:
                return at
            at = above
        return at

    def field(self, at, rest, base, again=False):
        """The new path, from c, of the fields `rest` of the place `at`, which lies above the place `base`."""
        f = self.f
        step = f.places[at][2]
        head = rest[0]
        if step[0] and flat(head) == flat(step[0]):
            for i in range(len(f.places)):
                arm = f.arms[i]
                if not arm:
                    continue
                below = i
                while below is not None and below != at:
                    below = f.parent(below)
                if below is None:
                    continue
                best = None
                for field, was, path in arm[2]:
                    if flat(was) == flat(head) and path and rest[1 : 1 + len(path)] == path:
                        if best is None or len(path) > len(best[1]):
                            best = (field, path)
                if best:
                    return [arm[0], best[0]] + rest[1 + len(best[1]) :]
            return [step[1]] + [r.replace("-", "_") for r in rest[1:]]
        if flat(head) in ("args", "requires", "ranges", "well_formed"):
            return [r.replace("-", "_") for r in rest]
        if not again:
            above = base
            while above is not None:
                step = f.places[above][2]
                if step[0] and flat(head) == flat(step[0]):
                    return self.field(above, rest, base, True)
                above = f.parent(above)
        self.said.append(f"field {'.'.join(rest)} at {f.places[at][0]}")
        return rest

    def body(self, text, at, name="c", goal=None):
        """Rewrites each path from `name`, which stands at the place `at`, and from the places that a let names.

        A whole place is reached in the answer to `goal` by its name, and in a lemma by `before`.
        """
        known = {name: at}
        depth = {}
        # lets that name a place
        let = re.compile(r"let (\w[\w'₀-₉]*) = ([a-z]\w*)((?:\.before)*) in\s*")
        while True:
            found = None
            for m in let.finditer(text):
                if m[2] in known and (m[3] or m[2] != name or True):
                    found = m
                    break
            if not found:
                break
            place = self.place_of(known[found[2]], found[3].count(".before"))
            if place is None:
                self.said.append("let " + found[0])
                break
            known[found[1]] = place
            depth[found[1]] = depth.get(found[2], 0) + found[3].count(".before")
            text = text[: found.start()] + text[found.end() :]

        def path(m):
            var, rest = m[1], [r for r in m[2].split(".") if r]
            if var not in known:
                return m[0]
            n = 0
            while n < len(rest) and rest[n] == "before":
                n += 1
            place = self.place_of(known[var], n)
            if place is None:
                self.said.append("path " + m[0])
                return m[0]
            if n == len(rest):
                if goal:
                    self.used.add(self.f.new_places[place])
                    return f"(goal.at.{goal} {name}).{self.f.new_places[place]}"
                steps = depth.get(var, 0) + n
                # a place that says what the types of its values say stands in a record of its own
                return name + ".before" * (steps + (1 if steps and self.f.typed[at] else 0))
            return name + "." + ".".join(self.field(place, rest[n:], at))

        text = PATH.sub(path, text)
        text = FIELD.sub(lambda m: "." + m[1].replace("-", "_") if m[1].replace("-", "_") in FIELDS else m[0], text)
        # the test of `!x` says of x what it says
        return re.sub(r"(?<=\s)\((c\.[^\s,()]+)\)", r"\1", NEGATED.sub(r"\2", text))


def shadowed(text, names, to):
    """Replaces the names by their new paths, but where the text binds them."""
    out, i, level, scopes = [], 0, 0, []
    token = re.compile(r"λ ([^.]*)\.|\(([\w'₀-₉ ]+) : |[(){}\[\]]|(?<![\w.'₀-₉-])([A-Za-z_][\w'₀-₉-]*)|.", re.S)
    while i < len(text):
        m = token.match(text, i)
        t = m[0]
        bound = None
        if m[1] is not None:
            bound = re.findall(r"[A-Za-z_][\w'₀-₉]*", re.sub(r":[^)]*\)", ")", m[1]))
            scopes.append((level, bound))
        elif m[2] is not None:
            level += 1
            scopes.append((level - 1, m[2].split()))
        elif t in "([{":
            level += 1
        elif t in ")]}":
            level -= 1
            scopes = [s for s in scopes if s[0] <= level]
        elif m[3] is not None and t in names and not any(t in s[1] for s in scopes):
            t = to[t]
        out.append(t)
        i = m.end()
    return "".join(out)


def parameters(crate, name):
    """The names of a function's parameters, which old proofs number where a parameter is an array or a struct."""
    for folder, _, files in os.walk(os.path.join(crate, "src")):
        for file in files:
            with open(os.path.join(folder, file), encoding="utf-8") as h:
                m = re.search(rf"\bfn {name}\(([^()]*(?:\([^()]*\)[^()]*)*)\)", h.read())
            if m:
                return re.findall(r"(?:mut )?(\w+)\s*:(?!:)", m[1])
    return []


def turn(path, f, module, said):
    with open(path, encoding="utf-8") as h:
        text = h.read()
    named = parameters(path.split("/proofs/")[0], os.path.basename(os.path.dirname(path)))
    text = re.sub(r"\.t(\d+)(?![\w-])", lambda m: "." + named[int(m[1]) - 1] if int(m[1]) <= len(named) else m[0], text)
    uses, tail, decls = blocks(text)
    t = Turn(f, said)
    head = decls[0][0] if decls else []
    # comments above the use lines
    top = []
    for line in text.split("\n"):
        if line.startswith("--"):
            top.append(line)
        else:
            break
    spec = re.search(r"tie\.spec((?:\s+[^\s()]+)*)\)", text)
    given = spec[1].split() if spec else []
    n_inv = 2 * len(f.loops)
    order = given[n_inv:] if len(given) - n_inv == len(f.needs) else None
    if order is None:
        order = [g for g in given if not re.match(r"(invariant|decreases)", g)]
    goals = {}
    if len(order) != len(f.needs):
        asked = {declared(lines): re.search(r" : tie\.Need-([^\s]+)", lines[0]) for _, lines in decls}
        key = [re.sub(r"^(overflow|nonzero)_", "", flat(asked[o][1] if asked.get(o) else o)) for o in order]
        a = [re.sub(r"^slice_bounds_", "part_", k) for k in key]
        b = [re.sub(r"^slice_bounds_", "part_", flat(n[0])) for n in f.needs]
        same = [(x + i, y + i) for x, y, n in difflib.SequenceMatcher(None, a, b, False).get_matching_blocks() for i in range(n)]
        said.append("goals gone: " + ", ".join(o for i, o in enumerate(order) if i not in dict(same)))
        for i, j in same:
            goals[order[i]] = (f.needs[j][1], f.index[flat(f.asked[j][0])])
    else:
        for name, (was, now), place in zip(order, f.needs, f.asked):
            goals[name] = (now, f.index[flat(place[0])])
    keep = [u for u in uses if ".Statement." not in u and not u.rstrip().endswith("Tie as tie")]
    inv, ans, places = [], [], set()
    rename = {old: new for old, (new, _) in goals.items()}

    def plain(x):
        for old, new in rename.items():
            x = re.sub(rf"(?<![\w.'-]){re.escape(old)}(?= c\b)", new, x)
        return x

    for comment, lines in decls:
        comment = [c for c in comment if c not in top]
        name = declared(lines)
        section = re.match(r"module _ .*?\((\w+) : tie\.([^\s)]+)", lines[0])
        if section and f.index.get(flat(section[2])) is not None:
            at = f.index[flat(section[2])]
            places.add(f.new_places[at])
            out = "\n".join(lines).replace("tie." + section[2], f.new_places[at], 1)
            ans.append("\n".join(comment) + ("\n" if comment else "") + plain(t.body(out, at, section[1])))
            continue
        if name is None:
            said.append("not read: " + lines[0])
            ans.append("\n".join(comment + lines))
            continue
        joined = "\n".join(lines)
        if "tie.close" in joined:
            continue
        loop = re.match(r"abbrev (invariant|decreases)-(\S+) : tie\.", lines[0])
        if loop:
            new = f.loop_name(loop[2])
            if new is None:
                said.append(f"no loop {loop[2]}")
                continue
            which = next(i for i, ((was, now), _) in enumerate(f.loops) if now == new)
            names, changed = f.loops[which][1], f.changed[which]
            m = re.match(rf"{re.escape(name)}((?: \S+)*?) =", "\n".join(lines[1:]))
            params = m[1].split()
            fields = [("initial." + v if c else v) for v, c in zip(names, changed)] + [v for v, c in zip(names, changed) if c]
            to = {p: "l." + x for p, x in zip(params, fields)} if len(params) == len(fields) else {}
            for p in params if not to else ():
                plain_name = p.rstrip("₀")
                if plain_name in names:
                    to[p] = "l." + ("initial." if p != plain_name and changed[names.index(plain_name)] else "") + plain_name
            body = "\n".join(lines[1:])[m.end() :]
            body = shadowed(body, set(to) - {"_"}, to)
            inv.append("\n".join(comment + [f"abbrev pub {loop[1]}-{new} : goal.{loop[1]}-{new}", f"{loop[1]}-{new} l ={body}"]))
            continue
        if name in goals:
            new, at = goals[name]
            eq = next(i for i, x in enumerate(lines) if re.match(re.escape(name) + r"(?=[\s=])", x) and i > 0)
            body = "\n".join(lines[eq:])
            m = re.match(rf"{re.escape(name)} (\S+)((?: \S+)*?) =", body)
            if not m:
                said.append("equation: " + body[:100])
                ans.append("\n".join(comment + lines))
                continue
            rest = body[m.end() :]
            if rest.strip() in ("search rules", "search needs"):
                continue
            rest = plain(t.body(rest, at, m[1], new))
            ans.append("\n".join(comment + [f"pub {new} : goal.{new}"] + [x for x in lines[1:eq] if x.startswith("unfolding")] + [f"{new} {m[1]}{m[2].replace(' κs', '')} ={rest}"]))
            continue
        m = re.search(r"\((\w+) : tie\.([^\s)]+)", lines[0])
        if m:
            at = f.index.get(flat(m[2]))
            if at is None:
                said.append("no place " + m[2])
                ans.append("\n".join(comment + lines))
                continue
            to = f.new_places[at]
            places.add(to)
            out = re.sub(r"tie\.[^\s)]+(?: (?:invariant|decreases)-[^\s)]+)*", to, joined, count=1)
            sig, var = out, m[1]
            ans.append("\n".join(comment) + ("\n" if comment else "") + plain(t.body(out, at, var)))
            continue
        m = re.match(r"(?:abbrev |pub )*\S+ : tie\.(\S+)((?: (?:invariant|decreases)-\S+)*) → ", lines[0])
        if m and f.index.get(flat(m[1])) is not None:
            at = f.index[flat(m[1])]
            to = f.new_places[at]
            places.add(to)
            out = joined.replace("tie." + m[1] + m[2], to, 1)
            eq = re.search(rf"(?m)^{re.escape(name)} (\w+)", out)
            ans.append("\n".join(comment) + ("\n" if comment else "") + plain(t.body(out, at, eq[1] if eq else "c")))
            continue
        if " : tie.Need-" in lines[0] and joined.rstrip().endswith("= search rules"):
            continue
        if "tie." in joined:
            said.append("tie in: " + lines[0])
        ans.append("\n".join(comment + lines))
    folder = os.path.dirname(path)
    if inv:
        with open(os.path.join(folder, "Invariants.antt"), "w", encoding="utf-8") as h:
            h.write("\n".join(([] if ans else top) + keep + [f"use {module}.Given as goal", ""]) + "\n" + "\n\n".join(inv) + "\n")
    places |= t.used
    if ans:
        more = [f"use {module}.Goals.{{{', '.join(sorted(places))}}}"] if places else []
        with open(os.path.join(folder, "Answers.antt"), "w", encoding="utf-8") as h:
            h.write("\n".join(top + keep + [f"use {module}.Goals as goal"] + more + [""]) + "\n" + "\n\n".join(ans) + "\n")
    os.remove(path)


def main():
    crate, names = sys.argv[1:]
    with open(names, encoding="utf-8") as h:
        data = json.load(h)
    name = os.path.basename(os.path.abspath(crate))
    for folder, _, files in os.walk(os.path.join(crate, "..")):
        for file in files:
            if file.endswith(".rt"):
                with open(os.path.join(folder, file), encoding="utf-8") as h:
                    FIELDS.update(re.findall(r"\b([a-z0-9]+(?:_[a-z0-9]+)+)\s*:(?!:)", h.read()))
    for folder, _, files in os.walk(os.path.join(crate, "proofs")):
        if "Proof.antt" not in files:
            continue
        path = os.path.join(folder, "Proof.antt")
        rel = os.path.relpath(folder, os.path.join(crate, "proofs")).replace("/", ".")
        key = f"Rattle-{name}-proofs.{rel}.Lts"
        if key not in data:
            print(f"{path}: no names")
            continue
        with open(path, encoding="utf-8") as h:
            if "tie.close" not in h.read():
                print(f"{path}: by hand")
                continue
        said = []
        turn(path, Function(data[key]), f"Rattle.{name}.proofs.{rel}", said)
        for s in said:
            print(f"{path}: {s}"[:700])


main()
