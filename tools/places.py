#!/usr/bin/env python3
"""Lists the places in crates/*/src that docs/DESIGN-PASS.md counts, point by point.

Usage: python3 tools/places.py [POINT]     prints each place and how many there are.

The points that only reading finds (twins, conversions by hand) have their lists in that page.
"""
import collections
import glob
import re
import sys

FILES = sorted(glob.glob("crates/*/src/*.rt"))


def code(path):
    """The text of a file without its comments."""
    return re.sub(r"//[^\n]*", "", open(path, encoding="utf-8").read())


def lines(pattern):
    found = []
    for path in FILES:
        for number, line in enumerate(code(path).split("\n"), 1):
            if re.search(pattern, line):
                found.append(f"{path}:{number}: {line.strip()}")
    return found


def enums():
    """Enums of two cases, at least one of them with values, or without."""
    found = []
    for path in FILES:
        for m in re.finditer(r"enum (\w+)[^{]*\{(.*?)\n\}", code(path), re.S):
            cases = re.findall(r"^    (\w+)", m.group(2), re.M)
            if len(cases) == 2:
                found.append(f"{path}: {m.group(1)}: {', '.join(cases)}")
    return found


def functions():
    """Each function: its crate, name, parameters, answer and clauses."""
    for path in FILES:
        text = code(path)
        for m in re.finditer(r"\bfn (\w+)(?:<[^(]*>)?\(([^)]*)\)([^{;]*?)\n((?:\s*(?:requires|ensures)\b.*?\n)*?)\s*\{\n", text, re.S):
            yield path, m.group(1), re.findall(r"(\w+)\s*:|(&(?:mut )?self|\bself)", m.group(2)), m.group(3).strip(), m.group(4)


def numbers():
    """Functions that answer the number of a refusal."""
    return [f"{p}: {name}" for p, name, _, answer, _ in functions() if answer == "-> u8" and "/extremes/" not in p and "/decimals/" not in p]


def facts():
    """Facts that the requires of three or more functions of a crate state."""
    users = collections.defaultdict(set)
    for path, name, _, _, clauses in functions():
        asked = re.findall(r"requires(.*?)(?=ensures|requires|\Z)", clauses, re.S)
        for word in set(re.findall(r"\b[A-Z]\w+", " ".join(asked))):
            users[path.split("/")[1], word].add(name)
    return [f"{c}: {w}: {', '.join(sorted(u))}" for (c, w), u in sorted(users.items()) if len(u) >= 3]


def many():
    """Functions of six or more parameters."""
    return [f"{p}: {name}: {len(ps)}" for p, name, ps, _, _ in functions() if len(ps) >= 6]


POINTS = {
    "1a": ("enums of two cases", enums),
    "1b": ("functions that answer a refusal's number", numbers),
    "1c": ("numbers for kinds: constants of type u8", lambda: lines(r"^\s*(pub )?const \w+: u8\b")),
    "3a": ("loops by while or loop", lambda: lines(r"\b(while|loop)\b.*\{$")),
    "3b": ("for over a range of numbers", lambda: lines(r"\bfor \w+ in [^{]*\.\.")),
    "4": ("derives", lambda: lines(r"#\[derive\(")),
    "5a": ("facts in three or more contracts of a crate", facts),
    "5b": ("functions of six or more parameters", many),
    "6": ("functions that put something at a place of an output", lambda: lines(r"out: &mut \[u8[^,]*, at: usize")),
    "7": ("matches on a form, a filter or a length", lambda: lines(r"\bmatch (form|chosen|terms|lent|self)\b")),
}

for point, (what, find) in POINTS.items():
    if len(sys.argv) > 1 and not point.startswith(sys.argv[1]):
        continue
    places = find()
    print(f"{point} {what}: {len(places)}")
    for place in places:
        print(f"    {place}")
