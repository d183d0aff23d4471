#!/usr/bin/env python3
"""Lists places in crates/*/src (tests apart) that an older form of Rattle left behind.

Run from the repository's root; with the root of another checkout as argument it looks there.
Each heading is a kind of older form; each line is a place, for a reader to judge.
"""
import re
import sys
from pathlib import Path

ROOT = Path(sys.argv[1] if len(sys.argv) > 1 else ".")
FILES = sorted(p for p in ROOT.glob("crates/*/src/**/*.rt") if p.name != "tests.rt")

LINES = {
    "1a arms that only hand an answer on": r"^\s*(Ok\(\w+\) => Ok\(|Err\(\w+\) => (return )?Err\(|Err\(_\) => (return )?Err\("
    r"|Some\(\w+\) => Some\(|None => None|Ok\(\(\)\) => \{\}|Ok\(\w+\) => \w+,$)",
    "1b arms that cannot come": r"unreachable\(\)",
    "1c a fault or nothing, for a result": r"-> Option<\w*Fault>|if let Some\(fault\)",
    "1d numbers for kinds or refusals": r"\bkind: (u32|[012])\b|Option<u32>,|\bnumber: u32|kind\.number\(\)|\bkind (==|in) [0-9]",
    "1e variants for yes and no of one call": r"^    Not\w+",
    "3a loops over numbers": r"^\s*for \w+ in .*\.\..*\{$",
    "3b while loops": r"^\s*while ",
    "3c counters by hand": r"^\s*\w+ [+-]= 1;|saturating_add\(1\)",
    "3d loops over items": r"^\s*for [^.]*(?<!\.\.) in (?!.*\.\.).*\{$",
    "4 equality, order, conversion, zeros by hand": r"fn (of|is_before|number|new)\((number|condition|a: Triple|self\)|\) -> Totals)|\w+: 0,$",
    "6 numbers into a list kept by hand": r"low < high|\[i - 1\]|\[\w+ \* \w+\.\.",
    "7 steps or tables chosen by a number": r"match (step|stage|phase|mode)\b|\[fn\(",
}


def functions(text):
    for m in re.finditer(r"^[ \t]*(pub(\(\w+\))? )?fn (\w+)", text, re.M):
        open_at = text.find("\n", m.start())
        brace = re.compile(r"^[ \t]*\{$|\{$", re.M).search(text, m.start())
        if not brace:
            continue
        depth, i = 0, brace.end() - 1
        while i < len(text):
            depth += {"{": 1, "}": -1}.get(text[i], 0)
            i += 1
            if depth == 0:
                break
        yield m.group(3), text.count("\n", 0, m.start()) + 1, text[brace.end() - 1 : i]


def main():
    for title, pattern in LINES.items():
        found = [
            (p.relative_to(ROOT), n, line.strip())
            for p in FILES
            for n, line in enumerate(p.read_text().splitlines(), 1)
            if re.search(pattern, line) and not line.strip().startswith("//")
        ]
        print(f"== {title}: {len(found)}")
        for p, n, line in found:
            print(f"{p}:{n}: {line}")
    shapes = {}
    for p in FILES:
        for name, n, body in functions(p.read_text()):
            shape = re.sub(r"\b[A-Za-z_]\w*\b|\d+", "#", re.sub(r"//.*", "", body))
            shape = re.sub(r"\s+", "", shape)
            if shape.count("#") >= 8:
                shapes.setdefault(shape, []).append(f"{p.relative_to(ROOT)}:{n} {name}")
    twins = [v for v in shapes.values() if len(v) > 1]
    print(f"== 2 functions of one shape: {len(twins)} groups")
    for group in twins:
        print("; ".join(group))
    sigs = {}
    for p in FILES:
        for m in re.finditer(r"\bfn (\w+)(<[^>]*>)?\(([^)]*)\)", p.read_text(), re.S):
            types = tuple(re.findall(r"(\w+): ", m.group(3)))
            for k in range(len(types) - 2):
                sigs.setdefault(types[k : k + 3], []).append(f"{p.relative_to(ROOT)} {m.group(1)}")
    together = {k: v for k, v in sigs.items() if len(v) > 2}
    print(f"== 5 three parameters that stand together in three functions or more: {len(together)}")
    for k, v in together.items():
        print(", ".join(k), "--", "; ".join(v))


main()
