#!/usr/bin/env python3
"""Brings this repository's own definitions and lemmas to the spelling of names that the kit asks for.

usage: python3 tools/spell.py          at the top of the repository: rewrites crates/ (specs, proofs, clauses) in place, once
       python3 tools/spell.py --list   prints the renamings and writes nothing

- specs/Contracts.antt becomes specs/Promises.antt, since the kit makes a module of the first name itself.
- Words are in snake case, whatever they name: halfUp is half_up. Types, facts and modules keep their capitals, and so do the tables' own names (B1, SI2, D10).
- Fields of records have no dash: adds-up is adds_up.
- In a lemma's name a dash stays where it joins the name of a definition to other words (length-tab); plain words are joined by an underscore.
- The proof of a function f is f_spec.
Names of the kit, of functions, types and fields of src/, and strings stay.
"""
import collections
import os
import re
import sys

STOP = r"\s(){}\[\],;.`\""
TOKEN = re.compile(rf"[^{STOP}]+")
KEYS = {"use", "mod", "--", "infix", "infixl", "infixr", "where", "let", "in", "unfolding", "open", "elim", "module", "mutual", "ruleset"}
HEAD = re.compile(rf"^(\s*)((?:(?:abbrev|unfoldable|pub|record|data)\s+)*)([^{STOP}:]+)\s*(.*)$")
# names of the kit's library that lemma names are made of
LIBRARY = set("length append take drop set get_or map abs pos neg mul add sub div mod le lt suc zero cond not ltb leb eqb min max list nat int tt concat replicate".split())

# where the rule would give one name to two things of one file, or hide a definition behind a field of its record
OTHERWISE = {
    "figures-fit": "figures-fit",
    "final-terms": "final_terms_lem",
    "first-from": "first-from",
    "last-from": "last-from",
    "last-year": "last_year_is",
    "noneBelow": "none_below_zero",
    "oneMore": "or_one_more",
    "read_answer": "read_answer_lem",
    "size-of": "size_of_signed",
}


def paths(kinds):
    for d, ds, fs in os.walk("crates"):
        ds[:] = sorted(x for x in ds if x not in ("out", "must-fail"))
        for f in sorted(fs):
            if f.endswith(kinds):
                yield os.path.join(d, f)


def read(p):
    with open(p, encoding="utf-8") as f:
        return f.read()


def snake(part):
    if not re.search(r"[a-z0-9][A-Z]", part) or not re.match(r"[^A-Za-z]*[a-z]", part):
        return part
    part = re.sub(r"([a-z0-9])([A-Z])", r"\1_\2", part)
    return re.sub(r"[A-Z]+", lambda m: m.group(0).lower(), part)


def declared():
    """Each own name with its kinds: 'def' (of specs/), 'field', 'lemma' (of proofs/)."""
    kinds = collections.defaultdict(set)
    theirs = set()
    for p in paths(".antt"):
        inside = None
        for line in read(p).split("\n"):
            m = re.match(r"\s*use ([^{]*)\.?(?:\{(.*)\})?", line)
            if m and line.lstrip().startswith("use "):
                if not re.match(r"Rattle\.(?!std\b|core\b)", m.group(1)):
                    theirs.update(re.findall(r"[^\s,{}]+", m.group(2) or ""))
                continue
            m = HEAD.match(line)
            if not m:
                continue
            indent, words, name, rest = m.groups()
            if name in KEYS:
                continue
            if inside is not None and line.strip() and len(indent) <= inside:
                inside = None
            if "record" in words.split():
                inside = len(indent)
                continue
            if not rest.startswith(":"):
                continue
            if inside is not None:
                kinds[name].add("field")
            elif "/specs/" in p:
                kinds[name].add("def")
            elif p.endswith("/Proof.antt"):
                kinds[name].add("step")
            else:
                kinds[name].add("lemma")
    return kinds, theirs


def renamings():
    kinds, theirs = declared()
    defs = {snake(n) for n, k in kinds.items() if "def" in k and "-" not in n} | LIBRARY
    new = {}
    for n, k in sorted(kinds.items()):
        if n in theirs or "◌" in n:
            continue
        parts = [snake(x) for x in n.split("-")]
        if re.search(r"-spec$", n) and k == {"step"}:
            to = "_".join(parts)
        elif "field" in k:
            to = "_".join(parts)
        elif k == {"step"}:
            to = "-".join(parts)
        elif any(x in defs for x in parts) or not all(re.fullmatch(r"[a-z0-9_']+", x) for x in parts):
            to = "-".join(parts)
        else:
            to = "_".join(parts)
        to = OTHERWISE.get(n, to)
        if to != n:
            new[n] = to
    return new, kinds


def main(argv):
    new, kinds = renamings()
    used = collections.defaultdict(set)
    for p in paths((".antt", ".rt")):
        for t in set(TOKEN.findall(read(p))):
            used[t].add(p)
    by_new = collections.defaultdict(list)
    for n, to in new.items():
        by_new[to].append(n)
    for to, ns in sorted(by_new.items()):
        for n in ns:
            both = used[to] & used[n]
            if len(ns) > 1:
                print(f"falls together: {ns} -> {to}")
                break
            if to in kinds and (used[n] & used[to]):
                print(f"falls together: {n} -> {to}, declared too: {sorted(both)[:3]}")
            elif both:
                print(f"look: {n} -> {to} stands beside {to}: {sorted(both)[:3]}")
    if argv == ["--list"]:
        for n, to in sorted(new.items()):
            print(f"{n}\t{to}\t{' '.join(sorted(kinds[n]))}")
        return 0
    for p in list(paths((".antt", ".rt"))):
        t = read(p)
        u = TOKEN.sub(lambda m: new.get(m.group(0), m.group(0)), t)
        u = re.sub(r"\bContracts\b", "Promises", u)
        if u != t:
            with open(p, "w", encoding="utf-8") as f:
                f.write(u)
        if p.endswith("/specs/Contracts.antt"):
            os.rename(p, p.replace("Contracts", "Promises"))
    return 0


if __name__ == "__main__":
    raise SystemExit(main(sys.argv[1:]))
