#!/usr/bin/env python3
"""Respells the definitions and lemmas of this repository that the kit's port.py leaves in the older spelling.

usage: python3 tools/respell.py        at the top of a tree that port.py has turned, once

Words of specs/ and proofs/ go to snake case (`maxOrder` to `max_order`, `spelled-cut` to `spelled_cut`), as port.py
turns those that a library has too. Types, facts, modules, functions of src/, generated names and text stay. It stops,
and writes nothing, where two names would fall together, or a new name already stands in a file that cites it.
"""

import glob
import re
import sys

# names that would fall together with another: with a definition's that they begin as a type does or are a lemma on, or
# with a function's of src/
BY_HAND = {
    "EventTries": "used_event_tries",
    "LineupTries": "used_lineup_tries",
    "file-size": "file_size_lem",
    "used-events": "used_events_lem",
    "used-lengths": "used_lengths_lem",
    "used-entries": "used_entries_lem",
    "kindWord": "word_of_kind",
    "placeWords": "words_of_place",
}
ANSWERS = ("Answers.antt", "Invariants.antt", "Choices.antt", "Proof.antt")
TOKEN = re.compile(r"[^\s(){}\[\];,.\"`λ∀:]+")
DEFINED = re.compile(r"^\s*(?:(?:abbrev|unfoldable|pub|record|data)\s+)*([a-z][\w'-]*)\s*:\s")


def files():
    for kind in ("specs/**/*.antt", "proofs/**/*.antt", "src/**/*.rt"):
        for p in sorted(glob.glob("crates/*/" + kind, recursive=True)):
            if "/out/" not in p:
                yield p


def read(p):
    with open(p, encoding="utf-8") as f:
        return f.read()


def snake(name):
    name = re.sub(r"([a-z0-9])([A-Z])", lambda m: m[1] + "_" + m[2].lower(), name)
    return name.replace("-", "_")


def own_names():
    names = {}
    for p in files():
        if p.endswith(".antt") and not p.endswith(ANSWERS):
            for line in read(p).splitlines():
                m = DEFINED.match(line)
                if m and not line.lstrip().startswith(("--", "let ", "record ")) and snake(m[1]) != m[1]:
                    names[m[1]] = snake(m[1])
    return names | BY_HAND


def turn(text, names, mark):
    """The text with its names respelled; in a comment only those that no plain word looks like."""
    def line(l):
        cut = l.find(mark)
        code, note = (l, "") if cut < 0 else (l[:cut], l[cut:])

        def word(m):
            made = m.start() and m.string[m.start() - 1] == "." and "-" in m[0]
            return m[0] if made else names.get(m[0], m[0])

        return TOKEN.sub(word, code) + TOKEN.sub(lambda m: m[0] if "-" in m[0] else names.get(m[0], m[0]), note)

    return "".join(line(l) for l in text.splitlines(keepends=True))


def main():
    names = own_names()
    new = list(names.values())
    bad = sorted({n for n in new if new.count(n) > 1})
    for p in files():
        words = set(TOKEN.findall(read(p)))
        bad += [f"{p}: {n}" for o, n in sorted(names.items()) if o in words and n in words]
        for path, listed in re.findall(r"use ((?:Rattle\.std|lib|native|mathlib)[\w.]*)\.\{([^}]*)\}", read(p)):
            bad += [f"{p}: {w} is {path}'s" for w in re.split(r",\s*", listed) if w in names]
    if bad:
        sys.exit("respell: these fall together:\n" + "\n".join(bad))
    for p in files():
        old = read(p)
        text = turn(old, names, "//" if p.endswith(".rt") else "--")
        if text != old:
            with open(p, "w", encoding="utf-8") as f:
                f.write(text)
    for o, n in sorted(names.items()):
        print(o, n)


if __name__ == "__main__":
    main()
