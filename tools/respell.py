#!/usr/bin/env python3
"""Brings the repository's own names of definitions, lemmas, fields and variables of specs/ and proofs/ to today's spelling: snake case, and upper camel case for facts.

usage: tools/respell.py [--list]   at the top of the repository, once, right after the library's own script

It reads .antt files, the clauses of .rt files and the must-fail edits below crates/, rust/ and tools/exported, and the pages that cite the names. With --list it
writes nothing, and prints the names that would fall together with others.
"""

import glob
import os
import re
import sys

IDENT = r"[^\s(){}.,;:«»\"`|]+"
# Facts, that is definitions of a type, get a type's spelling.
FACTS = {
    "amplifiedTo": "AmplifiedTo",
    "zerosTo": "ZerosTo",
    "sameFrom": "SameFrom",
    "scaledWords": "ScaledWords",
    "scaledSide": "ScaledSide",
    "silentNodes": "SilentNodes",
}
# Facts whose old name is a word that stands for other things elsewhere: in these crates alone.
LOCAL_FACTS = {"gain": {"gathered": "Gathered", "scattered": "Scattered", "frame_at": "FrameAt"}}
CAMEL = re.compile(r"^[a-z][A-Za-z0-9_'-]*[A-Z]")


def antt():
    return sorted(glob.glob("crates/*/specs/**/*.antt", recursive=True) + glob.glob("crates/*/proofs/**/*.antt", recursive=True))


def read(path):
    with open(path, encoding="utf-8") as f:
        return f.read()


def uncommented(text):
    return re.sub(r"--.*", "", text)


def snake(word):
    # a capital behind a dash is a type's or a fact's name, which keeps it
    parts = word.split("-")
    return "-".join(p if p[:1].isupper() else re.sub(r"(?<=[a-z0-9'])([A-Z])", lambda m: "_" + m.group(1).lower(), p) for p in parts)


def table():
    words = set()
    for path in antt():
        words |= set(re.findall(IDENT, uncommented(read(path))))
    return {w: FACTS.get(w, snake(w)) for w in words if CAMEL.match(w) and FACTS.get(w, snake(w)) != w}, words


def turned(text, names):
    return re.sub(IDENT, lambda m: names.get(m.group(0), m.group(0)), text)


def main():
    names, words = table()
    if sys.argv[1:] == ["--list"]:
        for old, new in sorted(names.items()):
            if new in words or list(names.values()).count(new) > 1:
                print(f"{old} -> {new}: stands already")
        print(len(names))
        return
    pages = [p for p in glob.glob("docs/*.md") + ["README.md", "tools/exported"] if os.path.basename(p) not in ("PORT.md",)]
    sources = antt() + sorted(glob.glob("crates/*/src/**/*.rt", recursive=True) + glob.glob("crates/*/must-fail/**/*.edit", recursive=True))
    for path in sources + pages:
        text = read(path)
        crate = path.split("/")[1] if path.startswith("crates/") else ""
        new = turned(text, {**names, **LOCAL_FACTS.get(crate, {})})
        if new != text:
            with open(path, "w", encoding="utf-8") as f:
                f.write(new)


if __name__ == "__main__":
    main()
