#!/usr/bin/env python3
"""Respells this repository's own definitions and lemmas: words in snake case. Run once, right after port.py.

usage: python3 tools/respell.py [--list]     at the top of the repository

It turns each name that a file of specs/ or proofs/ defines (a definition, a lemma, a field, a constructor, a local
lemma of a proof) from `leastFixed` or `in-range` to `least_fixed` and `in_range`. Names of the kit's libraries, names
that Rattle makes (what a file cites by `tie.`), types, modules, code, strings and texts stay as they are. Two names
that would fall together in one file are listed, and OTHER says what the second is called.
"""

import glob
import os
import re
import sys

# Names that would fall together with another of the same file, by what they are called in its place.
OTHER = {
    "in-range": "is_in_range",
    "times-in-range": "times_are_in_range",
    "at-most": "at_most_lem",
    "entry-at": "entry_at_lem",
    "no-order": "no_order_lem",
    "rows-at": "rows_at_lem",
    "rows_in": "rows_in_lem",
    "not_after": "comes_first",
    "lent_rows": "lent_as_rows",
    "is-stable": "is_stable_order",
    "first-late": "late_first",
    "is-possible": "is_possible_order",
    "table-refusals": "refused_tables",
    "fifth-job": "fifth_in_turn",
}

KIT = os.environ.get("RATTLE_KIT", "/opt/rattle") + "/rattle"
WORD = re.compile(r"(?<![\w'\-.])[^\W\d_][\w']*(?:-[\w'+]+)*")
NAMES = re.compile(r"^(\s*)((?:(?:abbrev|unfoldable|pub|opaque|private)\s+)*)([^\s:(){}=\[\];,|]+(?:\s+[^\s:(){}=\[\];,|]+)*)\s*:(?:\s+(.*))?$")


def snake(name):
    name = re.sub(r"(?<=[a-z0-9₀-₉'])([A-Z])", lambda m: "_" + m.group(1).lower(), name)
    return name.replace("-", "_")


def files():
    for ext in ("antt", "rt"):
        for p in sorted(glob.glob(f"crates/**/*.{ext}", recursive=True)):
            if "/out/" not in p:
                yield p
    yield from sorted(glob.glob("crates/*/must-fail/*.edit"))


def of_kit():
    """Every name with a dash or a capital within that the kit's libraries define."""
    found = set()
    for top in (KIT,):
        for p in glob.glob(top + "/**/*.antt", recursive=True):
            with open(p, encoding="utf-8", errors="replace") as f:
                for line in f:
                    m = NAMES.match(line)
                    if m:
                        found.update(m.group(3).split())
    return found


def defined(p, text):
    for line in text.split("\n"):
        if line.lstrip().startswith("--"):
            continue
        m = NAMES.match(line)
        if m and not (m.group(4) or "").startswith(("tie.Need-", "tie.invariant", "tie.decreases")):
            yield from m.group(3).split()
        # names that `let`, λ and arguments bind
        for b in re.findall(r"\blet ([^\W\d][\w'\-]*) (?::|=)", line):
            yield b
        for b in re.findall(r"[({]([^\W\d][\w'\- ]*) : ", line):
            yield from b.split()
        for b in re.findall(r"λ ([^.()]+)\.", line):
            yield from b.split()
        for b in re.findall(r"[{;] ([^\W\d][\w'\-]*) =", line):
            yield b


def turn(text, names, ext):
    """The text with its names turned, but for strings, comments' plain words and what follows a `tie.`"""
    out = []
    for line in text.split("\n"):
        parts = re.split(r'("(?:[^"\\]|\\.)*")', line)
        for i in range(0, len(parts), 2):
            mark = "--" if ext == "antt" else "//"
            at = re.search(r"(^|\s)" + mark + r"(\s|$)", parts[i])
            code, note = (parts[i][: at.start()], parts[i][at.start():]) if at else (parts[i], "")
            code = re.sub(r"[\w'₀-₉\-.+]+", lambda m: path(m.group(0), names), code)
            note = re.sub(r"`[^`]*`", lambda m: re.sub(r"[\w'₀-₉\-.+]+", lambda w: path(w.group(0), names), m.group(0)), note)
            note = re.sub(r"(?<![\w'\-.])[a-z][a-z0-9]*(?:[A-Z][a-z0-9]*)+(?![\w'\-])", lambda m: names.get(m.group(0), m.group(0)), note)
            parts[i] = code + note
        out.append("".join(parts))
    return "\n".join(out)


def path(word, names):
    if word.startswith(("tie.", "lts.", "mut.")):
        return word
    return ".".join(names.get(w, w) for w in word.split("."))


def main():
    kit = of_kit()
    texts = {}
    names = {}
    for p in files():
        with open(p, encoding="utf-8") as f:
            texts[p] = f.read()
        if p.endswith(".antt"):
            for d in defined(p, texts[p]):
                s = snake(d)
                if d in OTHER or (s != d and d[0].islower() and d not in kit):
                    names[d] = OTHER.get(d, s)
    # a lemma or a field that would have its definition's name
    camel = {snake(d) for d in names if "-" not in d and snake(d) != d}
    for d in names:
        if "-" in d and d not in OTHER and snake(d) in camel:
            names[d] = snake(d) + "_lem"
    together = 0
    for p, t in texts.items():
        words = set(re.findall(r"[^\W\d_][\w'₀-₉]*(?:-[\w'+]+)*", "\n".join(l.split(" -- ")[0] for l in t.split("\n") if not l.lstrip().startswith(("--", "//")))))
        to = {}
        for w in words:
            to.setdefault(names.get(w, w), set()).add(w)
        for new, olds in sorted(to.items()):
            if len(olds) > 1:
                together += 1
                print(f"together: {p}: {' '.join(sorted(olds))} -> {new}")
    print(f"{len(names)} names, {together} places where two fall together")
    if "--list" in sys.argv:
        for d, s in sorted(names.items()):
            print(d, s)
        return
    for p, t in texts.items():
        new = turn(t, names, p.rsplit(".", 1)[1])
        if new != t:
            with open(p, "w", encoding="utf-8") as f:
                f.write(new)


main()
