#!/usr/bin/env python3
"""Checks the pages, and writes those that are made from the sources.

    scripts/docs.py WORD [--check]
    scripts/docs.py readme --compile
    scripts/docs.py examples --compile

The word is one of these. With --check nothing is written; it may be left out where a word only checks.

    believed    writes docs/HEADLINE.md, the definitions that the contract of the headline reaches; the check says
                whether the page is what it would write
    readme      says whether the examples of README.md and docs/GUIDE.md are in code that the gate runs, or with
                --compile whether each of them compiles unchanged, in a minute
    examples    says whether what README.md and docs/GUIDE.md show of the programs is what these print, as
                scripts/try_tests.sh compiled them, or as --compile compiles them
    contracts   writes docs/CONTRACTS.md, the public calls with their contracts; the check says whether the page is
                what it would write
    sizes       writes the table of sizes into docs/MEASURED.md; the check says whether it is what it would write
    definitions lists the names of docs/DEFINITIONS.md that no definition has
    untested    lists the public calls that no worked example shows
    links       lists the links of the pages that lead nowhere
    pictures    draws docs/pictures, by Graphviz's `dot`; the check, which needs no Graphviz, says whether each
                picture is up to date
    all         makes every check, as the gate does behind scripts/try_tests.sh

The module of the word, in scripts/docs, says more. The status is 0 where a page is written, or nothing is wrong with
what is checked, and 1 otherwise.
"""
import sys

from docs import believed, contracts, definitions, examples, links, pictures, readme, sizes, untested
from krates_sources import wrong_words

CHECKS = (believed, readme, examples, contracts, sizes, definitions, untested, links, pictures)
MODULES = {it.__name__.rpartition(".")[2]: it for it in CHECKS}


def main(words):
    """Does what the words ask, and returns the status."""
    word, rest = (words or [""])[0], words[1:]
    if word == "all" and rest in ([], ["--check"]):
        return 0 if all([module.check() for module in MODULES.values()]) else 1
    module = MODULES.get(word)
    if module and rest == ["--compile"] and hasattr(module, "compile_all"):
        return 0 if module.compile_all() else 1
    if word != "all" and not module:
        return wrong_words(__doc__, f"no such word: {word}" if word else "a word is missing")
    if rest not in ([], ["--check"]):
        return wrong_words(__doc__, f"what {word} doesn't take: {' '.join(rest)}")
    if rest or not hasattr(module, "write"):
        return 0 if module.check() else 1
    module.write()
    return 0


if __name__ == "__main__":
    sys.exit(main(sys.argv[1:]))
