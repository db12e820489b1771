#!/usr/bin/env python3
"""Tries edits in a copy of the working tree, each of which the proof, the compiler or a test has to refuse.

    scripts/edits.py apply [CRATE..]
    scripts/edits.py wrong-bodies [CRATE..]
    scripts/edits.py must-not-compile [CRATE..]
    scripts/edits.py changed-answers [--compiled] CRATE..

Where the crates may be left out, all are tried without them.

    apply              whether each edit still applies to the sources, in a second: none is tried
    wrong-bodies       the edits in crates/CRATE/must-fail and crates/CRATE/wrong-bodies, which the proof has to refuse
    must-not-compile   the edits in crates/CRATE/must-not-compile, which the compiler has to refuse; it takes a minute
                       of processor time
    changed-answers    another answer in each table of worked examples, which its test has to refuse; the tests run
                       without a proof, or with --compiled by `rt test`, which proves them first and takes ten minutes

The module of the word, in scripts/edits, says more. The status is 0 where every edit was refused, or applies, and there
was one, and 1 otherwise.
"""
import pathlib
import sys
import tempfile

from edits import applying, changed_answers, must_not_compile, wrong_bodies
from krates_sources import copy_tree, crates, wrong_words

WORDS = {
    "apply": applying.do_apply,
    "wrong-bodies": wrong_bodies.are_refused,
    "must-not-compile": must_not_compile.are_refused,
    "changed-answers": changed_answers.are_refused,
    "changed-answers --compiled": changed_answers.are_refused_compiled,
}


def main(given):
    """Does what the words ask, and returns the status."""
    word, names = (given or [""])[0], given[1:]
    if word == "changed-answers":
        word += " --compiled" * ("--compiled" in names)
        names = [name for name in names if name != "--compiled"]
    if word not in WORDS:
        return wrong_words(__doc__, f"no such word: {word}" if word else "a word is missing")
    if word.startswith("changed-answers") and not names:
        return wrong_words(__doc__, "a crate is missing")
    if options := [name for name in names if name.startswith("-")]:
        return wrong_words(__doc__, f"no such option: {options[0]}")
    for name in names:
        if name not in crates():
            sys.exit(f"{name}: crates.txt lists no such crate")
    with tempfile.TemporaryDirectory() as folder:
        room = pathlib.Path(folder)
        copy_tree(room)
        return 0 if WORDS[word](room, names or list(crates())) else 1


if __name__ == "__main__":
    sys.exit(main(sys.argv[1:]))
