#!/usr/bin/env python3
"""Brings the names of definitions and lemmas in README, docs/ and comments' backticks to today's spelling.

usage: python3 tools/docs.py FILE..   at the top of the repository; FILE are pages. docs/landings/ stay as they were written.
"""
import re
import sys

# names that the kit's port.py respelled, since a library had them
PORTED = "a-back abs-is abs-neg add-at add-row add-total add-turn add-wide after-nothing ahead-more ahead-none ahead-past alike-spec all-said among-first among-later answer-back array-again array-at array-back array-same as-long at-inner at-map at-most at-take atPlace back-done back-fits back-found back-more back-none back-start before-more bits-back both-below both-zero by-form by-size by-span bytes-back bytesOf cell-below cellAt cellOf cellsOf close-at close-row copies-at copy-more count-most countFor countOf counted-spec div-is entryAt enum-told even-is fill-spec filled-more filled-none filled-on first-back first-below first-rows first-small firstAt four-bytes four-products from-all from-place from-second from-start from-zero front-kept front-long front-rest gap-same group-at has-value held-small held-whole in-cell in-list in-order in-parts inTurn indexOf is-number isWhole kept-at kind-0 kind-3 kindAt kindOf left-after length-from length-front lent-fits level-in lines-more lines-none listFrom lower-spec main-spec moved-as mul-at nearest-in neg-value next-down next-past no-fraction no-header no-less no-more no-number no-other no-place no-true none-above none-below none-yet not-after not-full not-negative nothing-put number-counts number-is number-of number-past number-small numberIn numberOf of-other one-alike one-apart one-fewer one-less one-more one-side oneOf only-nan or-left orElse own-is own-row pairs-is part-filled place-is place-same placeOf quotient-fits r-small raised-is read-again read-answer read-back read-done read-here read-more read-spec replace-spec root-is row-in row-room rows-fit rows-long same-bytes same-digits same-length same-row same-test second-back short-back signOf signed-high signed-low signed-word size-is sizeOf span-fits start-back start-is startIn startOf step-in stopped-more stored-more stored-short sub-out sub-row sub-wide sum-is sum-more sum-same sumAt tableOf tablesOf taken-more taken-none taken-twice takes-first text-of the-end the-inside the-sum to-level too-far too-few too-many too-short totalOf tries-of two-bytes upTo value-of valueAt valueOf walk-more walk-none whole-is widen-spec within-level word-below word-fits word-same write-again write-done write-spec written-count written-start zero-bits".split()


def snake(name):
    name = re.sub(r"([a-z0-9])([A-Z])", r"\1_\2", name.replace("-", "_"))
    return name.lower()


def names():
    new = {n: snake(n) for n in PORTED}
    with open("tools/names.tsv", encoding="utf-8") as f:
        for line in f:
            a, b = line.split("\t")[:2]
            new[a] = b
    new.update({"natAbs": "nat_abs", "getD": "get_or", "ofBits": "from_bits", "the-variants": "TheVariants"})
    return new


def turned(code, new):
    def part(m):
        word = m.group(0)
        return new.get(word, word)

    code = re.sub(r"\b(\w+)/Contracts\b", r"\1/Promises", code)
    code = re.sub(r"\b(\w+):Contracts\b", r"\1:Promises", code)
    if re.fullmatch(r"\w+/[a-z0-9][\w*-]*", code):
        return code  # an edit, or a folder
    return re.sub(r"[^\s(){}\[\],;.`\"/:]+", part, code)


def main(files):
    new = names()
    for p in files:
        with open(p, encoding="utf-8") as f:
            text = f.read()
        out = re.sub(r"`([^`\n]+)`", lambda m: "`" + turned(m.group(1), new) + "`", text)
        if out != text:
            with open(p, "w", encoding="utf-8") as f:
                f.write(out)


if __name__ == "__main__":
    main(sys.argv[1:])
