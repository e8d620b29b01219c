#!/usr/bin/env python3
"""Brings this repository's own definitions and lemmas to snake case, after port.py: onMap becomes on_map, and so on.

usage: python3 tools/respell.py            at the top of the repository, once, with the tree as port.py leaves it

A name is turned where it stands as a whole word in crates/: in .antt files, in the .rt files' clauses and comments, and in
the must-fail edits. A lemma that would have its definition's name in one file gets _lem. Nothing else is touched: the code's
own identifiers are in snake case already, and strings have none of these names.
"""
import glob
import re
import sys

WORD = re.compile(r"[^\s(){}\[\].,;:=|\"`«»@⟦⟧]+")
# Lemmas that stand in one file with the definition of their name: (the file or files, the lemma).
LEMMAS = [
    ("crates/cuts/specs/CutLaws.antt", "in_cut"),
    ("crates/soundness/specs/SoundnessLaws.antt", "key_right"),
    ("crates/soundness/specs/SoundnessLaws.antt", "in_use"),
    ("crates/zones/specs/RideLaws.antt", "in_use"),
    ("crates/lookup/specs/SpotLaws.antt", "spot_on"),
    ("crates/cars/specs/LeaveLaws.antt", "spot_on"),
    ("crates/readings/specs/ScoringLaws.antt", "spot_on"),
    ("crates/readings/specs/SearchLaws.antt", "spot_on"),
    ("crates/cars/proofs/report/admit/Proof.antt", "spot_on"),
    ("crates/readings/proofs/search/refuse_search/Proof.antt", "spot_on"),
]


def snake(name):
    return re.sub(r"(?<=[a-z0-9])([A-Z])", lambda m: "_" + m.group(1).lower(), name)


def read(path):
    with open(path, encoding="utf-8") as f:
        return f.read()


def write(path, text):
    with open(path, "w", encoding="utf-8") as f:
        f.write(text)


def turned(text, name, to):
    return re.sub(r"(?<![\w'\-.])" + re.escape(name) + r"(?![\w'])(?!-\w)", to, text)


def main():
    antt = sorted(glob.glob("crates/**/*.antt", recursive=True))
    rest = sorted(glob.glob("crates/**/*.rt", recursive=True) + glob.glob("crates/*/must-fail/*.edit"))
    for path, lemma in LEMMAS:
        try:
            text = read(path)
        except FileNotFoundError:
            continue
        write(path, turned(text, lemma, lemma + "_lem"))
    names = set()
    for path in antt:
        text = re.sub(r"(?m)--.*$", "", read(path))
        names |= {w for w in WORD.findall(text) if re.match(r"[a-z→]", w) and re.search(r"[a-z0-9][A-Z]", w) and not w.startswith("0x")}
    # In a name with dashes each part is turned; a type's part keeps its capital.
    table = {n: "-".join(p if p[:1].isupper() else snake(p) for p in n.split("-")) for n in names}
    together = sorted(n for n in table if list(table.values()).count(table[n]) > 1)
    if together:
        sys.exit("respell: these names would fall together: " + " ".join(together))

    def turn(match):
        return table.get(match.group(), match.group())

    for path in antt + rest:
        text = read(path)
        now = WORD.sub(turn, text)
        if now != text:
            write(path, now)
    for n in sorted(table):
        print(n, table[n])


main()
