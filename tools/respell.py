#!/usr/bin/env python3
"""Respells the repository's own definitions and lemmas as Rattle spells words: snake case for functions and lemmas, camel case for types.

usage: python3 tools/respell.py            at the top of the repository, once, after the kit's port.py

A name made of pieces joined by dashes is respelled piece by piece: `zeroAfter-ok` becomes `zero_after-ok`. Pieces that begin with a
capital are types and stay. Where a lemma had the name that its function now gets, the lemma's name ends in `_lem`. Sources, contracts,
edits and documents are respelled alike; in C and Rust only comments are. Names of src/, strings, inputs and outputs stay.
"""

import os
import re
import sys

TOKEN = re.compile(r"(?<![\w'◌ℕℤ])[A-Za-z_◌ℕℤ][\w'◌ℕℤ]*(?:-[\w'◌ℕℤ]+)*")

# Names that would fall together with the snake form of another: in antt alone, and not where a path or a projection names a function of src/.
APART = {
    "full_at": "full_poly_at",
    "mask_at": "mask_at_lem",
    "one_more": "one_more_lem",
    "record_of": "record_found",
    "set_known": "set_known_lem",
    "share_part": "share_part_lem",
    "signed_low": "signed_low_lem",
}
# A parameter of src/ has the plain snake form.
OTHER = {"publicKey": "public_key_of"}
# Words of the C interface and of other languages that documents cite.
KEEP = set()


def piece(word):
    if not re.match(r"[a-z]", word) or not re.search(r"[a-z0-9][A-Z]", word):
        return word
    word = re.sub(r"([a-z0-9])([A-Z])", r"\1_\2", word)
    word = re.sub(r"([A-Z])([A-Z][a-z])", r"\1_\2", word)
    return word.lower()


def respelled(name):
    if name in OTHER:
        return OTHER[name]
    if name in KEEP:
        return name
    return "-".join(piece(p) for p in name.split("-"))


def names_of(text):
    return {m.group() for m in TOKEN.finditer(text) if respelled(m.group()) != m.group()}


def turned(text, known, apart):
    def one(m):
        name = m.group()
        if apart and name in APART and text[m.start() - 1 : m.start()] not in (".", "/") and not re.match(r"\.[A-Z{]", text[m.end() :]):
            return APART[name]
        return respelled(name) if name in known else name

    return TOKEN.sub(one, text)


def outside_strings(text, turn):
    parts = re.split(r'("(?:[^"\\\n]|\\.)*")', text)
    return "".join(p if i % 2 else turn(p) for i, p in enumerate(parts))


def comments_alone(text, turn):
    return "\n".join(re.sub(r"(//|/\*|^ \*).*$", lambda m: turn(m.group()), line) for line in text.split("\n"))


def files(folder):
    for at, dirs, found in os.walk(folder):
        dirs[:] = sorted(d for d in dirs if d not in ("out", "target", ".git"))
        for name in sorted(found):
            yield os.path.join(at, name)


def main():
    known = set()
    for path in files("crates"):
        if path.endswith((".antt", ".rt")):
            with open(path, encoding="utf-8") as f:
                known |= names_of(f.read())
    print(f"{len(known)} names")
    for path in list(files("crates")) + list(files("docs")) + list(files("host")) + list(files("include")) + list(files("examples")) + ["README.md"]:
        if not path.endswith((".antt", ".rt", ".edit", ".md", ".rs", ".h", ".c")):
            continue
        with open(path, encoding="utf-8") as f:
            text = f.read()
        if path.endswith(".antt"):
            new = turned(text, known, True)
        elif path.endswith(".rt"):
            new = outside_strings(text, lambda t: turned(t, known, False))
        elif path.endswith((".md", ".edit")):
            new = turned(text, known, False)
        else:
            new = comments_alone(text, lambda t: turned(t, known, False))
        if new != text:
            with open(path, "w", encoding="utf-8") as f:
                f.write(new)
    return 0


if __name__ == "__main__":
    sys.exit(main())
