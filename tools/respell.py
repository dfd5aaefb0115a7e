#!/usr/bin/env python3
"""Brings the repository's own definitions and lemmas to snake case.

usage: python3 tools/respell.py     at the top, once, right after the toolchain's port.py has been run on what had been written for the older Rattle

A name that a file of specs/ or proofs/ declares, and that has a small first letter and a capital after it, or a dash in it, is written in snake case wherever it stands: in specs/,
in proofs/, in the clauses and comments of src/, in must-fail edits, and between backticks in pages. Where two names would fall together the definition's takes the
plain form and the lemma's gets `_lem` behind it. Names of src/, of strings, and of what Rattle makes of a function's steps are left alone.
"""

import collections
import os
import re

WORD = re.compile(r"[A-Za-z_«][A-Za-z0-9_'»-]*")
CAPITAL = re.compile(r"[A-Z]\w*-[\w'-]*")
DECLARED = re.compile(r"^\s*(?:abbrev |unfoldable )?(?:pub )?(?:abbrev |unfoldable )?(?:\{ *)?([a-z_][\w'-]*|[A-Z]\w*-[\w'-]*)\s*(?::(?!:)|$)")


def files(*endings):
    for top in ("crates", "docs", "bench", "examples", "tests", "."):
        if top == ".":
            yield from (f for f in os.listdir(".") if f.endswith(endings))
            continue
        for folder, dirs, names in os.walk(top):
            dirs[:] = sorted(d for d in dirs if d not in ("out", "target", ".git"))
            for name in sorted(names):
                if name.endswith(endings):
                    yield os.path.join(folder, name)


def read(path):
    with open(path, encoding="utf-8") as f:
        return f.read()


def snake(name):
    name = re.sub(r"([a-z0-9])([A-Z])", lambda m: m.group(1) + "_" + m.group(2).lower(), name)
    return re.sub(r"([A-Z])", lambda m: m.group(1).lower(), name).replace("-", "_")


def of_a_function(path):
    """Whether the file is a function's own proof: what it declares is cited nowhere else."""
    return path.endswith(("/Proof.antt", "/Answers.antt", "/Invariants.antt"))


def declared():
    places = collections.defaultdict(set)
    for path in files(".antt"):
        for line in read(path).splitlines():
            m = DECLARED.match(line)
            if m:
                places[m.group(1)].add(path)
    return places


def imported(own):
    """Names that some file takes from a library: those are not ours."""
    names = set()
    for path in files(".antt", ".rt"):
        for m in re.finditer(r"use ([\w.+]+)\.\{([^}]*)\}", read(path)):
            parts = m.group(1).split(".")
            if parts[0] != "Rattle" or parts[1] not in own:
                names |= {n.strip() for n in m.group(2).split(",")}
    return names


def rank(name, places):
    """A definition before a lemma, a capital before an underscore before a dash."""
    return (not any("/specs/" in p for p in places), "-" in name, not re.search("[A-Z]", name), name)


def turned(places, foreign):
    groups = collections.defaultdict(list)
    for name in places:
        groups[snake(name)].append(name)
    new = {}
    for plain, names in groups.items():
        names.sort(key=lambda n: rank(n, places[n]))
        for i, name in enumerate(names):
            to = plain if i == 0 else plain + "_lem"
            if name != to and name not in foreign:
                new[name] = to
    return new


def respell(text, new, also, fields, known):
    """Each word of the text. A word behind a dot is a field or a path's last part: a plain name there keeps its spelling."""

    def one(m):
        word = m.group(0)
        behind = bool(m.start()) and text[m.start() - 1] == "."
        if behind and CAPITAL.fullmatch(word) and snake(word) in known:
            return snake(word)
        if word not in new or word not in also:
            return word
        if behind:
            return snake(word) if word in fields or re.search("[A-Z]", word) else word
        return new[word]

    return WORD.sub(one, text)


def main():
    own = set(os.listdir("crates"))
    places = declared()
    new = turned(places, imported(own))
    # A name in snake case that gives way does so only in the files that declare it: elsewhere it may be a function's.
    narrow = {n for n in new if "-" not in n and not re.search("[A-Z]", n)}
    local = {n for n in places if not re.search("[A-Z]", n) and all(of_a_function(p) for p in places[n])}
    wide = set(new) - narrow - local
    fields = {n for n in new if any(re.search(r"(?m)^\s+pub " + re.escape(n) + r" :", read(p)) for p in places[n])}
    known = {snake(n) for n in places}
    for path in files(".antt", ".rt", ".edit", ".md"):
        text = read(path)
        here = wide | {n for n in narrow | local if path in places[n]}
        if path.endswith(".md"):
            to = re.sub(r"`[^`\n]+`", lambda m: respell(m.group(0), new, wide, fields, known), text)
        else:
            to = respell(text, new, here, fields, known)
        if to != text:
            with open(path, "w", encoding="utf-8") as f:
                f.write(to)
    print(f"respell: {len(new)} names; {sum(1 for n in new if new[n].endswith('_lem') and not n.endswith(('-lem', '_lem')))} with _lem")
    for name in sorted(new):
        if new[name] != snake(name):
            print(f"respell: {name} -> {new[name]}")


if __name__ == "__main__":
    main()
