#!/usr/bin/env python3
"""Respells the names that this repository's .antt files declare: words in snake case, types in upper camel case.

usage: python3 tools/snake_names.py     at the top, once, right after port.py

A name that falls together with one of the library gets another word (OTHER), or stays where files of both kinds use it (STD). Labels that the check makes (goal.x-y, c.x-y of
a step) are left, and so are names that no .antt file of this repository declares.
"""

import glob
import re

NAME = r"[A-Za-z][\w']*(?:-[\w']+)+"
DECLARED = re.compile(r"\s*(?:(?:abbrev|unfoldable|pub)\s+)*(?:(" + NAME + r")\s*:(?!=)|(?:record|data)\s+(?:pub\s+)?(" + NAME + r")\b)")
OTHER = {"bit-and": "bit_of_both"}
STD = {"map-map"}


def new_name(name):
    if name in OTHER:
        return OTHER[name]
    if name[0].isupper():
        return "".join(word[:1].upper() + word[1:] for word in name.split("-"))
    return name.replace("-", "_")


def files(*patterns):
    return sorted(f for p in patterns for f in glob.glob(p, recursive=True) if "/out/" not in f)


def main():
    logic = files("crates/*/specs/**/*.antt", "crates/*/proofs/**/*.antt")
    names = set()
    for path in logic:
        with open(path, encoding="utf-8") as f:
            for line in f:
                found = DECLARED.match(line)
                if found and "goal." not in line:
                    names.add(found.group(1) or found.group(2))
    taken = {}
    for name in sorted(names):
        if taken.setdefault(new_name(name), name) != name:
            raise SystemExit(f"{name} and {taken[new_name(name)]} fall together")
    word = re.compile(r"(?<![\w'.-])(goal\.)?(" + NAME + r")|(?<=\.)()(" + NAME + r")")

    def turn(found):
        name = found.group(2) or found.group(4)
        if found.group(1) or name not in names or name in STD:
            return found.group(0)
        return new_name(name)

    for path in logic + files("crates/*/src/**/*.rt"):
        with open(path, encoding="utf-8") as f:
            old = f.read()
        now = word.sub(turn, old)
        if now != old:
            with open(path, "w", encoding="utf-8") as f:
                f.write(now)


if __name__ == "__main__":
    main()
