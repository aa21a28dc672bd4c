#!/usr/bin/env python3
"""Spells the repository's own definitions and lemmas in snake case, as the library of today's Rattle does.

usage: python3 tools/snake_names.py        at the top of the repository, once, right after the kit's port.py

A word such as `stateByte` becomes `state_byte`, also as a part of a longer name (`atMost-mono`: `at_most-mono`). Words with an
underscore before a capital are the kit's (`mut_slice_Tells`) and stay, and so do byte literals. A lemma that would then have the name of
a definition gets `_lem` first. Functions of src/ have no such words; their names stay.
"""
import os
import re
import sys

# Lemmas whose names would fall together with a definition: `isFree` becomes `is_free`, and so on.
LEMMAS = {"is_free": "is_free_lem", "in_use": "in_use_lem"}

WORD = re.compile(r"(?<![\w'])[A-Za-z_][\w']*")
CAMEL = re.compile(r"[a-z][a-z0-9']*[A-Z]")


def snake(word):
    return re.sub(r"(?<=[a-z0-9'])[A-Z]+", lambda m: "_" + m.group(0).lower(), word)


def turned(match, lemmas):
    word = match.group(0)
    if word in lemmas:
        return lemmas[word]
    if CAMEL.match(word) and not re.search(r"_[A-Z]|^b'", word):
        return snake(word)
    return word


def main():
    files = 0
    for folder, dirs, names in os.walk("crates"):
        dirs[:] = sorted(d for d in dirs if d != "out")
        for name in sorted(names):
            if not name.endswith((".antt", ".rt", ".edit")):
                continue
            path = os.path.join(folder, name)
            with open(path, encoding="utf-8") as f:
                text = f.read()
            lemmas = LEMMAS if name.endswith(".antt") else {}
            new = WORD.sub(lambda m: turned(m, lemmas), text)
            if new != text:
                with open(path, "w", encoding="utf-8") as f:
                    f.write(new)
                files += 1
    print(f"snake_names: {files} files")


if __name__ == "__main__":
    sys.exit(main())
