#!/usr/bin/env python3
"""Brings the old: and new: texts of crates/*/must-fail/*.edit to the spelling of today's Rattle, where they name files of specs/ or proofs/, or imports and clauses of src/.

usage: python3 tools/edits.py          at the top of the repository, once, after port.py and tools/spell.py
       python3 tools/edits.py --look   writes nothing, and says which edits cannot be applied
"""
import glob
import os
import re
import sys

TOKEN = re.compile(r"[^\s(){}\[\],;.`\"]+")
LIBRARY = {"getD": "get_or", "natAbs": "nat_abs", "negℤ": "neg_ℤ", "toZ": "to_z", "ofZ": "of_z", "the-variants": "TheVariants", "Contracts": "Promises", "startIn": "start_in", "isWhole": "is_whole", "kindAt": "kind_at", "numberIn": "number_in", "firstAt": "first_at", "sizeOf": "size_of"}


def names():
    new = dict(LIBRARY)
    with open("tools/names.tsv", encoding="utf-8") as f:
        for line in f:
            a, b = line.split("\t")[:2]
            new[a] = b
    return new


def turned(text, new):
    text = re.sub(r"Rattle·(\w+)·(specs|proofs)\.\2", r"Rattle.\1.\2", text)
    text = re.sub(r"Rattle·(\w+)", r"Rattle.\1", text)
    text = re.sub(r"(?<![\w'-])_([^\s\w]+)_(?![\w'-])", r"◌\1◌", text)
    text = re.sub(r"\((\w+(?: \.[A-Za-z]\w*)+)\)", lambda m: m.group(1).replace(" .", "."), text)
    text = re.sub(r"\((\w+(?:\.[A-Za-z]\w*)+)\)", r"\1", re.sub(r"(?<=[\w)]) \.(?=[A-Za-z])", ".", text))
    return TOKEN.sub(lambda m: new.get(m.group(0), m.group(0)), text)


def main(look):
    new = names()
    bad = 0
    edits = sorted(glob.glob("crates/*/must-fail/*.edit"))
    for e in edits:
        crate = os.path.dirname(os.path.dirname(e))
        with open(e, encoding="utf-8") as f:
            lines = f.read().split("\n")
        texts, path, old, out = {}, None, None, []
        for line in lines:
            if line.startswith("file: "):
                line = line.replace("specs/Contracts.antt", "specs/Promises.antt")
                path = line[6:].strip()
                if path not in texts:
                    with open(f"{crate}/{path}", encoding="utf-8") as f:
                        texts[path] = f.read()
            elif line.startswith(("old: ", "new:")):
                word, text = line[:4], line[5:]
                if word == "old:":
                    if texts[path].count(text) != 1 and not look:
                        text = turned(text, new)
                        changed = True
                    else:
                        changed = False
                    old = text
                    if texts[path].count(old) != 1:
                        print(f"{e}: {path} has it {texts[path].count(old)} times: {old}")
                        bad += 1
                else:
                    if not look and (changed or not path.startswith("src/")):
                        text = turned(text, new)
                    if texts[path].count(old) == 1:
                        texts[path] = texts[path].replace(old, text)
                line = f"{word} {text}" if text else word
            out.append(line)
        if not look and out != lines:
            with open(e, "w", encoding="utf-8") as f:
                f.write("\n".join(out))
    print(f"{len(edits)} edits, {bad} texts that do not stand once")


if __name__ == "__main__":
    main("--look" in sys.argv[1:])
