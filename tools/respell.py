#!/usr/bin/env python3
"""Brings the definitions and lemmas of this repository to snake case, once, after the kit's port.py.

usage: tools/respell.py [--say]      at the top of the repository

Read are the names that crates/*/specs and crates/*/proofs declare: definitions, laws, fields, constructors.
One that has a dash or a capital inside is written in snake case wherever it stands as a name: in .antt files,
in .rt files outside strings, in must-fail edits, and between backticks in README.md and docs/. Types, facts,
modules, functions of src/ and the names of goals stay. --say prints the table and writes nothing.
"""

import collections
import glob
import os
import re
import sys

TOKEN = re.compile(r"[^\s(){}\[\],;.:?«»`\"]+")
DECLARED = re.compile(r"\s*(?:abbrev |unfoldable )?(?:pub )?([^\s(){}\[\],;.:?«»`\"λ=]+)\s+:\s")
# What the kit spells otherwise too: the name before a dash is a word of its own.
WORDS = {"getD": "get_or"}


def texts(*patterns):
    return sorted(it for p in patterns for it in glob.glob(p, recursive=True) if "/out/" not in it)


def snake(name):
    parts = []
    for part in name.split("-"):
        part = WORDS.get(part, part)
        if re.match(r"[a-z]", part):
            part = re.sub(r"(?<=[a-z0-9])([A-Z])", lambda it: "_" + it[1].lower(), part)
        parts.append(part)
    return "_".join(it for it in parts if it)


def declared():
    found = set()
    for path in texts("crates/*/specs/**/*.antt", "crates/*/proofs/**/*.antt"):
        proof = os.path.basename(path) == "Proof.antt"
        with open(path, encoding="utf-8") as f:
            for line in f:
                if line.lstrip().startswith("--") or line.startswith("use "):
                    continue
                it = DECLARED.match(line)
                if not it or it[1] in ("let", "|") or re.match(r"\s*(let|in)\b", line):
                    continue
                if proof and ("tie." in line or it[1].endswith("-spec")):
                    continue
                found.add(it[1])
    return found


def taken_from_outside():
    """Names that some file imports from the kit."""
    out = set()
    for path in texts("crates/*/specs/**/*.antt", "crates/*/proofs/**/*.antt", "crates/*/src/**/*.rt"):
        with open(path, encoding="utf-8") as f:
            for it in re.finditer(r"(?m)^\s*(?:pub |ghost )?use ([\w.+-]+)\.\{([^}]*)\}", f.read()):
                head = it[1].split(".")
                if head[0] != "Rattle" or head[1] == "std":
                    out |= {x.strip().split(" as ")[0] for x in it[2].split(",")}
    return out


def table():
    outside = taken_from_outside()
    found = declared()
    turn = {it for it in found if re.match(r"[A-Za-z]", it) and "◌" not in it and ("-" in it or re.search(r"^[a-z].*[a-z0-9][A-Z]", it))}
    turn -= outside
    names, taken = {}, (found - turn) | outside
    # Definitions first: of two names that would fall together the law gets the ending that the kit gives it.
    for it in sorted(turn, key=lambda x: ("-" in x, x)):
        new = snake(it)
        if new in taken and "-" not in it and new in found and new not in outside:
            names[new] = new + "_lem"
            taken.add(names[new])
        elif new in taken:
            new += "_lem"
            if "-" not in it or new in taken:
                raise SystemExit(f"{it}: {new} is taken")
        taken.add(new)
        names[it] = new
    return names


def turned(text, names):
    def one(it):
        new = names.get(it[0], it[0])
        # Behind a dot stands a step of a function's code or a field, and neither has the ending.
        return snake(it[0]) if new.endswith("_lem") and it.start() and text[it.start() - 1] == "." else new

    return TOKEN.sub(one, text)


def turned_rt(text, names):
    return re.sub(r"\"(?:[^\"\\]|\\.)*\"|[^\"]+", lambda it: it[0] if it[0].startswith('"') else turned(it[0], names), text)


def turned_page(text, names):
    return re.sub(r"`[^`\n]+`", lambda it: turned(it[0], names), text)


def main(say):
    names = table()
    if say:
        for old, new in names.items():
            print(old, new)
        return
    for path in texts("crates/*/specs/**/*.antt", "crates/*/proofs/**/*.antt", "crates/*/src/**/*.rt", "crates/*/must-fail/*.edit", "README.md", "docs/*.md"):
        with open(path, encoding="utf-8") as f:
            text = f.read()
        turn = turned_rt if path.endswith(".rt") else turned_page if path.endswith(".md") else turned
        new = turn(text, names)
        if new != text:
            with open(path, "w", encoding="utf-8") as f:
                f.write(new)


if __name__ == "__main__":
    main("--say" in sys.argv[1:])
