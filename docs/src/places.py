#!/usr/bin/env python3
"""Counts in the heads of functions, for docs/DESIGN-PASS.md: python3 docs/src/places.py [FOLDER]

Prints each function with five parameters or more, each with a slice and a number of the kinds in BESIDE beside it, and
each word with a capital that the `requires` of three functions or more have. FOLDER is a checkout's top (this one's).
"""
import collections
import re
import sys
from pathlib import Path

BESIDE = re.compile(r"(n|count|len|long|size|at|start|offset|from|end|k|named|position)\s*:\s*usize")
top = Path(sys.argv[1]) if len(sys.argv) > 1 else Path(__file__).resolve().parents[2]


def until(text, begin, opens, closes):
    """The index behind what closes the bracket before `begin`."""
    depth = 1
    while depth:
        depth += (text[begin] in opens) - (text[begin] in closes)
        begin += 1
    return begin


def parts(text):
    """What commas part, those inside brackets aside."""
    depth, found = 0, [""]
    for c in text:
        depth += (c in "<([{") - (c in ">)]}")
        if c == "," and depth == 0:
            found.append("")
        else:
            found[-1] += c
    return [part.strip() for part in found if part.strip()]


many, beside, facts = [], [], collections.defaultdict(set)
for file in sorted(top.glob("crates/*/src/**/*.rt")):
    text = file.read_text()
    for head in re.finditer(r"\bfn\s+(\w+)\s*(?:<[^(]*>)?\s*\(", text):
        name = f"{file.relative_to(top)} {head[1]}"
        end = until(text, head.end(), "(", ")")
        takes = parts(text[head.end() : end - 1])
        if len(takes) >= 5:
            many.append(f"{name}: {', '.join(takes)}")
        if any("[" in part for part in takes) and any(BESIDE.match(part) for part in takes):
            beside.append(f"{name}: {', '.join(takes)}")
        while clause := re.match(r"\s*(->[^{]*?)?\s*(requires|ensures)\s*\w*\s*\{", text[end:]):
            begin = end + clause.end()
            end = until(text, begin, "{", "}")
            if clause[2] == "requires":
                for word in re.findall(r"\b[A-Z]\w+", text[begin:end]):
                    facts[word].add(name)

print(f"five parameters or more: {len(many)}", *many, sep="\n  ")
print(f"a slice with a number beside it: {len(beside)}", *beside, sep="\n  ")
often = sorted((word, sorted(names)) for word, names in facts.items() if len(names) >= 3)
print(f"facts that three functions or more require: {len(often)}")
for word, names in often:
    print(f"  {word} {len(names)}:", ", ".join(name.split("/")[1] + "::" + name.split()[1] for name in names))
