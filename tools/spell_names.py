#!/usr/bin/env python3
"""Spells the names of definitions and lemmas as today's Rattle does: words in snake case (`firstOf` is `first_of`).

usage: tools/spell_names.py      at the top of the repository, once, after the kit's port.py

A word is a run of letters, digits and `_`; a dash joins words, so `countIf-turn` becomes `count_if-turn`. Types, facts and modules keep their capitals, and so do
constants named as the Rust names them (`BODIES`). Names of the kit's library are left alone. Where the new spelling of a definition is that of a lemma in its file,
the lemma gets `_lem` first. Functions of src/ are in snake case already; strings, inputs and outputs have no such word.
"""
import os
import re

WORD = re.compile(r"(?<![\w'])[a-z][A-Za-z0-9_]*[A-Z][A-Za-z0-9_]*(?!\w)")
# Constants of src/ have the Rust's spelling in a clause too (`AT-LOOP-FACE` is `AT_LOOP_FACE`).
CONSTANT = re.compile(r"(?<![\w'-])[A-Z][A-Z0-9]+(?:-[A-Z][A-Z0-9]*)+(?![\w'-])")
# Definitions, which are no lemmas, of two words.
WORDS = re.compile(r"(?<![\w'-])(words-at|reals-at|of-corners|no-fault|last-two|split-stone)(?![\w'-])")
# Words of the kit's library, or of an older one: port.py and what follows it turn them.
KIT = re.compile(r"(getD|isSome|leZ|ltZ|filterMap|not_T|(mut|shr|uint|walk)_\w+)")
# The lemma that would fall together with a definition of its file, by the files that name it.
APART = [
    ("front_of", "front_of_lem", ["image_loading/specs/Laws.antt"]),
    ("high_sum", "high_sum_lem", ["interval_enclosure/specs/Laws/Sums.antt"]),
    ("low_sum", "low_sum_lem", ["interval_enclosure/specs/Laws/Sums.antt"]),
    ("same_bytes", "same_bytes_lem", ["image_laws/specs/Numbers.antt", "image_laws/specs/Statements.antt"]),
    ("some_below", "some_below_lem", ["course_stones/specs/Weighing.antt"]),
    ("tables_end", "tables_end_lem", ["image_accepted/specs/Ends.antt", "image_accepted/specs/Whole.antt"]),
    ("has_room", "roomy", ["stl_reading_effects/specs/Room.antt", "stl_reading_effects/specs/Statements.antt"]),
]


def snake(word):
    word = re.sub(r"([a-z0-9])([A-Z])", r"\1_\2", word)
    return re.sub(r"([A-Z])([A-Z][a-z])", r"\1_\2", word).lower()


def files(top, endings):
    for folder, folders, names in os.walk(top):
        folders[:] = sorted(f for f in folders if f not in ("out", ".git", "target"))
        for name in sorted(names):
            if name.endswith(endings):
                yield os.path.join(folder, name)


def read(path):
    with open(path, encoding="utf-8", newline="") as it:
        return it.read()


def write(path, text):
    with open(path, "w", encoding="utf-8", newline="") as it:
        it.write(text)


def main():
    for old, new, named in APART:
        for path in named:
            path = os.path.join("crates", path)
            write(path, re.sub(rf"(?<![\w']){old}(?![\w'])", new, read(path)))
    code = list(files("crates", (".antt", ".rt")))
    words = {w for p in code for w in WORD.findall(read(p)) if not KIT.fullmatch(w)}
    turn = lambda m: snake(m[0]) if m[0] in words else m[0]
    pages = [*files("docs", (".md",)), *files("crates", (".edit",)), "README.md", "crates.txt", "compare/models/Shown.txt"]
    for path in code + pages:
        text = read(path)
        turned = WORD.sub(turn, text)
        for it in (CONSTANT, WORDS):
            turned = it.sub(lambda m: m[0].replace("-", "_"), turned)
        if turned != text:
            write(path, turned)
    print(f"{len(words)} words")


main()
