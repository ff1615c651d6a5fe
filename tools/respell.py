#!/usr/bin/env python3
"""Respells the repository's own definitions and lemmas in snake case.

usage: python3 tools/respell.py [--list]     at the top of the repository, once, behind the kit's port.py

A name of an .antt file below crates/ (a definition, a lemma, a field, a local name) that has a word in camel case with a small first letter gets that word
in snake case: setsFit is sets_fit, marketCopy-own is market_copy-own. Types, modules, variants and names of Rust code keep their
spelling; so do a dash, which joins two names, strings, and units in comments. --list prints old and new and the names that fall together.
"""

import os
import re
import sys

WORD = re.compile(r"(?<![A-Za-z0-9_'])[a-z][a-z0-9]*[A-Z][A-Za-z0-9']*(?![A-Za-z0-9_])")
# units of prose, which stay in comments
UNITS = {"kW", "kWh"}
# where the plain spelling is taken: `kw` is a power, `kW` the field of one
OTHERWISE = {"kW": "kw_field"}
# lemmas that port.py gave the spelling of the definition that they are about: they get their dash back
LEMMAS = "ahead_in block_in cell_in front_of head_bytes in_order joined_by lines_at listed_by no_flow no_line no_start number_by on_line power_at told_of".split()
LEMMA = re.compile(r"(?<![A-Za-z0-9_'-])(?<![a-z0-9_'-]\.)(" + "|".join(LEMMAS) + r")(?![A-Za-z0-9_'-])")


def snake(word):
    if word in OTHERWISE:
        return OTHERWISE[word]
    if word in UNITS:
        return word.lower()
    return re.sub(r"([a-z0-9])([A-Z])", r"\1_\2", re.sub(r"([A-Z]+)([A-Z][a-z])", r"\1_\2", word)).lower()


def files(root, endings):
    for folder, dirs, names in os.walk(os.path.join(root, "crates")):
        dirs[:] = sorted(d for d in dirs if d != "out")
        for name in sorted(names):
            if name.endswith(endings):
                yield os.path.join(folder, name)


def read(path):
    with open(path, encoding="utf-8") as f:
        return f.read()


def declared(root):
    """The words in camel case that .antt files use: the library has none."""
    words = set()
    for path in files(root, (".antt",)):
        for line in read(path).split("\n"):
            words |= set(WORD.findall(re.sub(r'"[^"]*"', "", line.split("--")[0])))
    return words


def turned(text, words, comment):
    """The text with its words respelled; units in comments stay."""
    out = []
    for line in text.split("\n"):
        at = line.find(comment)
        code, prose = (line, "") if at < 0 else (line[:at], line[at:])
        pieces = re.split(r'("[^"]*")', code)
        pieces[::2] = [WORD.sub(lambda m: snake(m.group(0)) if m.group(0) in words else m.group(0), p) for p in pieces[::2]]
        prose = WORD.sub(lambda m: snake(m.group(0)) if m.group(0) in words and m.group(0) not in UNITS else m.group(0), prose)
        out.append("".join(pieces) + prose)
    return "\n".join(out)


def together(root, words):
    """Names that fall together: two old words with one new, and new words that stand somewhere already."""
    new = {}
    for w in sorted(words):
        new.setdefault(snake(w), []).append(w)
    said = [(n, ws) for n, ws in sorted(new.items()) if len(ws) > 1]
    stands = {}
    for path in files(root, (".antt", ".rt")):
        for w in set(re.findall(r"(?<![A-Za-z0-9_'])[a-z][a-z0-9_']*(?![A-Za-z0-9_'])", re.sub(r'"[^"]*"', "", read(path)))):
            if w in new:
                stands.setdefault(w, set()).add(os.path.relpath(path, os.path.join(root, "crates")))
    return said, stands


def main(argv):
    root = os.path.join(os.path.dirname(os.path.abspath(__file__)), "..")
    words = declared(root)
    if "--list" in argv:
        for w in sorted(words):
            print(w, snake(w))
        said, stands = together(root, words)
        for n, ws in said:
            print("together:", n, *ws)
        for n, where in sorted(stands.items()):
            print("stands:", n, *sorted(where)[:8])
        return 0
    changed = 0
    for path in files(root, (".antt", ".rt", ".edit")):
        text = read(path)
        now = LEMMA.sub(lambda m: m.group(1).replace("_", "-"), text) if path.endswith(".antt") else text
        now = turned(now, words, "--" if path.endswith(".antt") else "//")
        if now != text:
            changed += 1
            with open(path, "w", encoding="utf-8") as f:
                f.write(now)
    print(f"respell: {len(words)} words, {changed} files")
    return 0


if __name__ == "__main__":
    raise SystemExit(main(sys.argv[1:]))
