"""Lists the names of docs/DEFINITIONS.md that neither a crate nor a definition has.

A name is what is in backquotes and brackets. All is well where each is there.
"""
import re
import sys

from krates_sources import ROOT

PAGE = ROOT / "docs" / "DEFINITIONS.md"

NAMED = re.compile(r"\(((?:`\w+`(?:, )?)+)\)")
DEFINED = re.compile(r"^\s*(?:abbrev |unfoldable )?pub (?:(?:data|record) )?(\w+)", re.M)


def defined():
    """The names of all crates, and of all their definitions."""
    names = {path.name for path in ROOT.glob("crates/*")}
    for path in ROOT.glob("crates/*/specs/**/*.antt"):
        names.update(DEFINED.findall(path.read_text(encoding="utf-8")))
    return names


def check():
    """Whether each name of the page is there; prints those that aren't."""
    page = re.sub(r"\s+", " ", PAGE.read_text(encoding="utf-8"))
    named = {name for names in NAMED.findall(page) for name in re.findall(r"\w+", names)}
    gone = sorted(named - defined())
    for name in gone:
        print(f"docs/DEFINITIONS.md: no definition is called {name}", file=sys.stderr)
    return not gone
