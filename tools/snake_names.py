#!/usr/bin/env python3
"""Respells this repository's own definitions and lemmas as today's Rattle does: words in snake case.

usage: python3 tools/snake_names.py            rewrites crates/, README.md, docs/ and tests/ in place
       python3 tools/snake_names.py --list     prints each name with its new spelling, and where two would fall together

It was run once, after /opt/rattle/port/port.py. A name is respelled where it is a word of its own and begins with a small letter: `isWellFormed` is
`is_well_formed`, `decodeRows-snoc` is `decode_rows-snoc`. Types and modules keep their capitals, and names of src/ were in snake case already.
"""

import os
import re
import sys

TOP = os.path.dirname(os.path.dirname(os.path.abspath(__file__)))
# A word: camel case from a small letter on, parts joined by dashes. Numbers in base 16, as `x9E`, are no names to be respelled.
WORD = re.compile(r"(?<![\w'′])(?:[a-z][A-Za-z0-9_'′]*)(?:-[A-Za-z0-9_'′]+)*")
HUMP = re.compile(r"(?<=[a-z0-9])[A-Z]")
KEPT = re.compile(r"x[0-9A-F]+$|.*_[A-Z]")  # hexadecimal; names of the kit, as `mut_Tells`

# Lemmas that had the new name of the definition that they speak of: (file, old, new).
LEMMAS = [
    ("crates/image/proofs", "flag_at", "flag_at_lem"),
    ("crates/checkpoint/proofs", "head_at", "head_at_lem"),
    ("crates/node_run/proofs", "goes_on", "goes_on_lem"),
    ("crates/roster/proofs/FieldTexts.antt", "is_digit", "is_digit_lem"),
    ("crates/agreement", "by_value", "dropped_by_value"),  # a field beside the constructor that was byValue
]


def snake(word):
    return HUMP.sub(lambda m: "_" + m.group(0).lower(), word)


def own_names():
    """Every word of crates/ that is in camel case and begins with a small letter."""
    names = set()
    for path in files("crates"):
        if path.endswith((".antt", ".rt")):
            with open(path, encoding="utf-8") as f:
                text = re.sub(r"(?m)--.*$|//.*$", "", f.read())
            text = re.sub(r'"[^"\n]*"', "", text)
            names.update(w for w in WORD.findall(text) if HUMP.search(w) and not KEPT.match(w))
    return names


def files(*tops):
    for top in tops:
        whole = os.path.join(TOP, top)
        if os.path.isfile(whole):
            yield whole
        for folder, dirs, names in os.walk(whole):
            dirs[:] = sorted(d for d in dirs if d not in ("out", "target", "__pycache__"))
            for name in sorted(names):
                yield os.path.join(folder, name)


def respell(text, names):
    def one(match):
        word = match.group(0)
        if word in names:
            return snake(word)
        # a dashed word in a comment or a page may be two words there
        return "-".join(snake(w) if w in names else w for w in word.split("-"))

    return WORD.sub(one, text)


def together(names):
    """Files in which a new spelling stood already beside the old one."""
    for path in files("crates"):
        if path.endswith((".antt", ".rt")):
            with open(path, encoding="utf-8") as f:
                text = re.sub(r"(?m)--.*$|//.*$", "", f.read())
            words = set(WORD.findall(text))
            for w in sorted(words & names):
                if snake(w) in words:
                    yield os.path.relpath(path, TOP), w


def main():
    names = own_names()
    if "--list" in sys.argv[1:]:
        for w in sorted(names):
            print(w, snake(w))
        for path, w in together(names):
            print("together:", path, w)
        return
    for top, old, new in LEMMAS:
        for path in files(top):
            if path.endswith(".antt"):
                with open(path, encoding="utf-8") as f:
                    text = f.read()
                turned = re.sub(r"(?<![\w'.-])" + old + r"(?![\w'-])", new, text)
                if turned != text:
                    with open(path, "w", encoding="utf-8") as f:
                        f.write(turned)
    for path in files("crates", "README.md", "docs", "tests/claims.py"):
        if path.endswith((".antt", ".rt", ".edit", ".md", ".py")):
            with open(path, encoding="utf-8") as f:
                text = f.read()
            turned = respell(text, names)
            if turned != text:
                with open(path, "w", encoding="utf-8") as f:
                    f.write(turned)


main()
