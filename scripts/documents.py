#!/usr/bin/env python3
"""Makes documents of `cargo metadata`: one of any size, or damaged ones, with which krates-list is tried.

    scripts/documents.py make COUNT [plain]
    scripts/documents.py damage FOLDER [COUNT]

    make     prints a document with COUNT packages, for measuring; with `plain` one that has no features and no optional
             dependencies
    damage   makes COUNT damaged documents, 20,000 where none is given, of those in a folder, FOLDER/NAME/metadata.json,
             which may be compressed, as metadata.json.gz; gives each to krates-list, and looks at how it ends

The module of the word, in scripts/documents, says more; the two small documents beside it are those that
scripts/compare.py takes by default. The program is the one that `rt run` builds in crates/krates_list, or $KRATES_LIST.

The status is 0 where the document is printed, or every run ended as it has to, 2 where a word is wrong, and 1 otherwise.
"""
import pathlib
import sys

from documents import damage, make
from krates_sources import do_word, wrong_words


def make_one(given):
    """Prints a document, as the words ask, and returns the status."""
    count, rest = (given or [""])[0], given[1:]
    if not count.isdecimal():
        return wrong_words(__doc__, f"no count: {count}" if count else "a count is missing")
    if rest not in ([], ["plain"]):
        return wrong_words(__doc__, f"what make doesn't take: {' '.join(rest)}")
    make.show(int(count), rest == ["plain"])
    return 0


def damage_some(given):
    """Tries damaged documents, as the words ask, and returns the status."""
    folder, rest = (given or [""])[0], given[1:]
    if not folder:
        return wrong_words(__doc__, "a folder is missing")
    if not pathlib.Path(folder).is_dir():
        return wrong_words(__doc__, f"no such folder: {folder}")
    counts = [int(count) for count in rest if count.isdecimal()]
    if len(rest) > 1 or len(counts) != len(rest):
        return wrong_words(__doc__, f"too many words, or no count: {' '.join(rest)}")
    return 0 if damage.damage(folder, *counts or [20000]) else 1


WORDS = {"make": make_one, "damage": damage_some}


if __name__ == "__main__":
    sys.exit(do_word(__doc__, WORDS, sys.argv[1:]))
