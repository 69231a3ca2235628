#!/usr/bin/env python3
"""Brings this repository's own definitions and lemmas to Rattle's spelling: words in snake case.

usage: python3 tools/respell.py        at the top, once, after the kit's port.py

In every .rt, .antt and .edit file of crates/, and in README.md and docs/, a word in lower camel case is
respelled, part by part where a dash joins two names: composeAt-assoc becomes compose_at-assoc. Words of code
that begin with a capital, and text in quotation marks, stay. Dashes stay where they join two names.
Must-fail edits are also turned to the spelling that port.py gives the files that they change.
It lists the words that it respelled, and those that fall together with another one of the same file.
"""

import glob
import os
import re
import subprocess

# Words of specs/ in which a dash joins no two names.
PLAIN = {"along-x": "along_x", "turn-x": "turn_x"}
# Lemmas that would have their function's name.
LEMMAS = {
    "crates/outcomes/proofs/": {"of_values": "of_values_lem"},
    "crates/sgal3_composition/proofs/": {"in_order": "in_order_lem"},
}
WORD = re.compile(r"(?<![\w.'-])[a-z][\w']*(?:-[\w']+)*|(?<=\.)[a-z][\w']*(?:-[\w']+)*")
QUOTED = re.compile(r'("(?:[^"\\]|\\.)*")')
# How port.py turns what stands in edits.
TURNED = [
    (re.compile(r"(?<=[\w)'\u2080-\u2089]) \.(?=[a-z0-9])"), "."),
    (re.compile(r"Rattle\u00b7(\w+)(?:\u00b7\w+)?\.specs\."), r"Rattle.\1.specs."),
    (re.compile(r"\b_([+\u2261*<\u2264\u2237^/%-]+)_"), "\u25cc\\1\u25cc"),
    (re.compile(r"\u2032"), "'"),
]


def snake(part):
    if not re.fullmatch("[a-z][a-z0-9]*[A-Z][A-Za-z0-9]*", part):
        return part
    part = re.sub(r"([a-z0-9])([A-Z])", r"\1_\2", part)
    return re.sub(r"([A-Z]+)([A-Z][a-z])", r"\1_\2", part).lower()


def respelled(word):
    return PLAIN.get(word) or "-".join(snake(p) for p in word.split("-"))


def turn(path, said):
    with open(path, encoding="utf-8") as f:
        text = f.read()
    new = text
    for folder, words in LEMMAS.items():
        if path.startswith(folder):
            for old, to in words.items():
                new = re.sub(rf"(?<![\w.'-]){old}(?![\w'-])", to, new)
    if path.endswith(".edit"):
        for pattern, to in TURNED:
            new = pattern.sub(to, new)

    def one(m):
        to = respelled(m[0])
        if to != m[0]:
            said.setdefault(m[0], to)
        return to

    if path.endswith(".md"):
        new = re.sub(r"`[^`\n]*`", lambda m: WORD.sub(one, m[0]), new)
    else:
        new = "".join(p if i % 2 else WORD.sub(one, p) for i, p in enumerate(QUOTED.split(new)))
    if new != text:
        with open(path, "w", encoding="utf-8") as f:
            f.write(new)


def main():
    said = {}
    files = sorted(p for e in ("rt", "antt", "edit") for p in glob.glob(f"crates/*/**/*.{e}", recursive=True) if "/out/" not in p)
    have = {}
    for p in files:
        if p.endswith(".antt"):
            with open(p, encoding="utf-8") as f:
                have[p] = set(WORD.findall(re.sub(r"--.*", "", f.read())))
    for p in files + ["README.md"] + sorted(glob.glob("docs/*.md")):
        turn(p, said)
    for old, to in sorted(said.items()):
        print(old, to)
    for p, words in have.items():
        for w in sorted(words):
            to = respelled(w)
            if to != w and to in words:
                print(f"look: {p}: {w} and {to} fall together")
    for folder in sorted(glob.glob("crates/*/src")):
        subprocess.run(["rt", "fmt"], cwd=os.path.dirname(folder), stdout=subprocess.DEVNULL, check=False)


if __name__ == "__main__":
    main()
