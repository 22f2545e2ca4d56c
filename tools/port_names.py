#!/usr/bin/env python3
"""Brings the repository's own definitions and lemmas to the spelling of today's Rattle: words in snake case.

usage: port_names.py [--list] [ROOT]

Run it once, at the top, behind the toolchain's port.py. In the .antt files of crates/ (and wip/), in the clauses,
ghost items and comments of .rt files and in the .edit files, each word that is spelt as runEnd becomes run_end.
Types, modules and constructors stay in camel case; names of the Rust source have no such spelling. --list prints the
words with their new spelling, and those that fall together with a word that stood before.
"""
import collections
import os
import re
import sys

PART = re.compile(r"(?<![\w'’₀-₉])[a-z][a-z0-9_]*(?<!_)[A-Z][\w'’₀-₉]*")
# Lemmas whose names, in snake case, are those of definitions that their files name: everywhere, or in one file.
LEMMAS = {
    "": "in_order in_place item_from more_room moved_by no_room one_more read_number same_line starts_by at_zero",
    "crates/carried/proofs/Runs.antt": "run_end",
    "crates/tokens/proofs/Steps.antt": "typed_at",
    "crates/tokens/proofs/Documents.antt": "end_of",
}


def snake(word):
    word = re.sub(r"([a-z0-9₀-₉])([A-Z])", r"\1_\2", word)
    word = re.sub(r"([A-Z]+)([A-Z][a-z])", r"\1_\2", word)
    return word.lower()


def files(root):
    for top in ("crates", "wip"):
        for folder, dirs, names in os.walk(os.path.join(root, top)):
            dirs[:] = sorted(d for d in dirs if d != "out")
            for name in sorted(names):
                if name.endswith((".antt", ".rt", ".edit")):
                    yield os.path.join(folder, name)


def turn(text, path):
    if path.endswith(".antt"):
        for where, words in LEMMAS.items():
            if path.endswith(where):
                for word in words.split():
                    text = re.sub(rf"(?<![\w'₀-₉.-]){word}(?![\w'₀-₉-])", word + "_lem", text)
    # Quoted text stays as it is.
    parts = re.split(r'("(?:[^"\\\n]|\\.)*")', text)
    for i in range(0, len(parts), 2):
        parts[i] = PART.sub(lambda m: snake(m[0]), parts[i])
    return "".join(parts)


def main():
    args = [a for a in sys.argv[1:] if a != "--list"]
    root = args[0] if args else "."
    if "--list" in sys.argv:
        seen, words = collections.Counter(), set()
        for path in files(root):
            text = re.sub(r'"(?:[^"\\\n]|\\.)*"', '""', open(path, encoding="utf-8").read())
            seen.update(m[0] for m in PART.finditer(text))
            words.update(re.findall(r"[\w'’₀-₉]+", text))
        new = collections.defaultdict(list)
        for word in seen:
            new[snake(word)].append(word)
        for to in sorted(new):
            mark = "  FALLS TOGETHER" if to in words or len(new[to]) > 1 else ""
            print(to, *new[to], mark)
        return
    for path in files(root):
        with open(path, encoding="utf-8", newline="") as f:
            old = f.read()
        text = turn(old, path)
        if text != old:
            with open(path, "w", encoding="utf-8", newline="") as f:
                f.write(text)


main()
