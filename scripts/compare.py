#!/usr/bin/env python3
"""Compares what the programs answer about documents with what is expected, or with another reading of them.

    scripts/compare.py WORD [FOLDER]
    scripts/compare.py certificates [FOLDER [COUNT]]
    scripts/compare.py built FOLDER
    scripts/compare.py cargo WORKSPACE [WORD..]
    scripts/compare.py workspace WORKSPACE [--built] [WORD..]

A document is FOLDER/NAME/metadata.json, which may be compressed, as metadata.json.gz. Where no folder is given, the
documents are the two small ones of scripts/documents. The word is one of these:

    lists          the lines of krates-list with the files NAME/*.list that lie beside a document
    graphs         the graphs that are drawn with the files NAME/*.graph
    queries        what each query answers with a plain reading of the drawn graph
    why            the steps that say why krates-list keeps a crate with a reading of the rules
    words          the answers of cargo-krates by krates to its words with a plain reading of the document and the drawn graph
    written        what is read of a document that was read and written with what was read of it at first
    bills          the bills of materials of cargo-krates with the schemas of CycloneDX, which a package of Debian has
    certificates   the certificates that cargo-krates writes by krates, and COUNT damaged ones (1,000 where none is given), with
                   what krates-check says of them
    built          what `units_of` derives about builds with the unit graphs of cargo, which FOLDER has in files of its own
    cargo          what `units_of` derives about a build of WORKSPACE that the words of `cargo build` ask for, with what the installed
                   cargo would build
    workspace      what `cargo krates list` answers in WORKSPACE, or a member's folder, to these words, with what the installed cargo would
                   build there, or with --built does build

The module of the word, in scripts/compare, says more. The programs are those that `rt run` builds in
crates/krates_list, crates/cargo_krates and crates/krates_check, or $KRATES_LIST, $CARGO_KRATES and $KRATES_CHECK. `written`
makes its own. The others that make one do so by scripts/compare/program.sh in two minutes: `built` and `cargo` that of built_units/, unless
$BUILT_UNITS names it, and `graphs`, `queries` and `words` that of drawn_graphs/, unless $DRAWN_GRAPHS names it.

The status is 0 where nothing differs and something was compared, 1 where not, and 2 where a program, or what the schemas need, isn't there.
"""
import pathlib
import sys

from compare import bills, built, cargo, certificates, expected, queries, why, words, workspace, written
from compare.programs import is_there, program
from krates_sources import ROOT, wrong_words

# What each word does, and the crates whose programs it asks.
WORDS = {
    "lists": (expected.lists, ["krates_list"]),
    "graphs": (expected.graphs, []),
    "queries": (queries.compare, []),
    "why": (why.compare, ["krates_list"]),
    "words": (words.compare, ["cargo_krates"]),
    "written": (written.compare, []),
    "bills": (bills.compare, ["cargo_krates"]),
    "certificates": (certificates.compare, ["cargo_krates", "krates_check"]),
    "built": (built.compare, []),
    "cargo": (cargo.compare, []),
    "workspace": (workspace.compare, ["cargo_krates"]),
}
# Those with any words behind the folder.
WITH_WORDS = ("cargo", "workspace")


def main(given):
    """Does what the words ask, and returns the status."""
    word, rest = (given or [""])[0], given[1:]
    folder = pathlib.Path(rest[0]) if rest else ROOT / "scripts" / "documents"
    more = rest[1:] if word in WITH_WORDS else [int(count) for count in rest[1:] if count.isdecimal()]
    is_short = len(rest) < 2 or word in WITH_WORDS or (word == "certificates" and len(rest) == 2 and more)
    if word not in WORDS:
        return wrong_words(__doc__, f"no such word: {word}" if word else "a word is missing")
    if not is_short:
        return wrong_words(__doc__, f"too many words, or no count: {' '.join(rest[1:])}")
    if not folder.is_dir():
        return wrong_words(__doc__, f"no such folder: {folder}")
    compare, crates = WORDS[word]
    for crate in crates:
        if not is_there(crate):
            print(f"there is no program {program(crate)}: run 'rt run < stdin' in crates/{crate}", file=sys.stderr)
            return 2
    if word == "bills" and not bills.is_ready():
        return 2
    return 0 if compare(folder, *more) else 1


if __name__ == "__main__":
    sys.exit(main(sys.argv[1:]))
