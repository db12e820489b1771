#!/usr/bin/env python3
"""Checks one crate without `rt`, which first builds each library below it anew, for an hour behind a gate.

    scripts/check.py sources FOLDER CRATE [--test] [--only FUNCTION]..
    scripts/check.py over-gate CRATE [WORD..]
    scripts/check.py over-gate CRATE --build
    scripts/check.py over-gate CRATE --archive FILE

    sources     compiles a crate of the repository whose top is FOLDER, with --test its tests too, over the sources of
                the libraries below it; nothing is proved except the functions that --only names, and what they call
    over-gate   checks a crate over the libraries that the gate left in this folder, in a minute or two; the words are
                the compiler's own, as --only FUNCTION, --test, --allow-holes. With --build it makes the crate's library
                anew, for the crates above it, and with --archive the archive of a static library

The module of the word, in scripts/check, says more. The status is 0 where the crate compiles and what is asked is
proved or made, 2 where a word is wrong or a library that the gate leaves isn't there, and 1 or the compiler's otherwise.
"""
import pathlib
import sys

from check import over_gate, sources
from krates_sources import crates, do_word, wrong_words


def check_sources(given):
    """Checks a crate over sources, as the words ask, and returns the status."""
    names = [word for word in given if word != "--test"]
    parts, only = names[2:], names[3::2]
    if len(names) < 2 or names[0].startswith("-") or names[1].startswith("-"):
        return wrong_words(__doc__, "a folder or a crate is missing")
    if parts[::2] != ["--only"] * len(only):
        return wrong_words(__doc__, f"what sources doesn't take: {' '.join(parts)}")
    root, name = pathlib.Path(names[0]).resolve(), names[1]
    if not (root / "crates.txt").is_file():
        sys.exit(f"{names[0]}: there is no crates.txt in this folder")
    if name not in crates(root):
        sys.exit(f"{name}: crates.txt lists no such crate")
    return 0 if sources.check(root, name, "--test" in given, only) else 1


def check_over_gate(given):
    """Checks a crate over what the gate left, or makes what is asked of it, and returns the status."""
    if not given:
        return wrong_words(__doc__, "a crate is missing")
    if given[0] not in crates():
        return wrong_words(__doc__, f"{given[0]}: crates.txt lists no such crate")
    name, rest = given[0], given[1:]
    if len(rest) != {"--build": 1, "--archive": 2}.get((rest or [""])[0], len(rest)):
        return wrong_words(__doc__, f"too many words, or no file: {' '.join(rest)}")
    return over_gate.status(name, rest)


WORDS = {"sources": check_sources, "over-gate": check_over_gate}


if __name__ == "__main__":
    sys.exit(do_word(__doc__, WORDS, sys.argv[1:]))
