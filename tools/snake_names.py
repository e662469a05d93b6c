#!/usr/bin/env python3
"""Spells the repository's own definitions, lemmas and antt fields as today's Rattle does: in snake case.

usage: tools/snake_names.py [--list] [FOLDER]

In each .antt and .rt file below FOLDER/crates (the folder it is run in if none is given) a word that begins with a small letter and has a
capital in it, as `turnOf` or the first part of `turnOf-lt`, is written `turn_of`, `turn_of-lt`. Types, modules and constructors begin with a
capital and stay. The source code's own names are in snake case already, so in a .rt file this reaches clauses and their imports alone.
--list prints each word with its new spelling, and a word that is there already under that spelling with a '!', and writes nothing.
"""
import os
import re
import sys

WORD = re.compile(r"(?<![\w'′-])[a-z][\w'′-]*")
CAPITAL = re.compile(r"(?<=[a-z0-9])([A-Z])(?![A-Z])")
# A lemma in snake case that would fall together with a definition that gets there: the lemma takes `_lem`. In .antt files alone, and not
# after a point, where it is a step's name.
LEMMAS = {"all_asked", "all_done", "at_turn", "both_left", "count_word", "each_fits", "each_left", "flag_word", "in_memory", "set_word", "target_fits", "width_word"}
# What port.py took for a word of the library's.
GARBLED = {"remove-IsFirst": "remove_first", "is_IsStore": "is_store"}


def snake(word):
    if word in GARBLED:
        return GARBLED[word]
    return CAPITAL.sub(lambda m: "_" + m.group(1).lower(), word)


def files(root):
    for folder, dirs, names in os.walk(os.path.join(root, "crates")):
        dirs[:] = sorted(d for d in dirs if d != "out")
        for name in sorted(names):
            if name.endswith((".antt", ".rt")):
                yield os.path.join(folder, name)


def turned(text, lemmas):
    def one(m):
        word = m.group(0)
        if re.search(r"[a-z0-9][A-Z]", word):
            return snake(word)
        if lemmas and word in LEMMAS and text[m.start() - 1 : m.start()] != ".":
            return word + "_lem"
        return word

    return WORD.sub(one, text)


def main(argv):
    listing = "--list" in argv
    argv = [a for a in argv if a != "--list"]
    root = argv[0] if argv else "."
    seen, new = set(), {}
    for path in files(root):
        with open(path, encoding="utf-8") as f:
            text = f.read()
        words = set(WORD.findall(text))
        seen |= words
        new.update({w: snake(w) for w in words if re.search(r"[a-z0-9][A-Z]", w)})
        if not listing:
            with open(path, "w", encoding="utf-8") as f:
                f.write(turned(text, path.endswith(".antt")))
    if listing:
        for word in sorted(new):
            print(("! " if new[word] in seen else "  ") + word, new[word])


if __name__ == "__main__":
    main(sys.argv[1:])
