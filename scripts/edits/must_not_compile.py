"""Tries the code that must not compile: edits in crates/CRATE/must-not-compile/, which the compiler has to refuse.

Such an edit has the lines of a wrong body, `file:`, `old:` and `new:`, and a line `error:` with the name of the error
that the compiler has to give. Nothing is proved or built.

Prints each edit that isn't refused so, and then how many were.
"""
import re
import sys

from check.sources import compiled


def lines_of(edit):
    """What the lines of an edit say, by the word with which they begin."""
    pairs = [line.partition(": ") for line in edit.read_text(encoding="utf-8").splitlines()]
    return {word: rest for word, _, rest in pairs}


def is_refused(room, crate, edit):
    """Whether the compiler refuses an edit of a crate as it says; prints what it says otherwise."""
    lines = lines_of(edit)
    path = room / "crates" / crate / lines["file"]
    text, old = path.read_text(encoding="utf-8"), lines["old"]
    if text.count(old) != 1:
        sys.exit(f"{edit.name}: {old!r} stands {text.count(old)} times in {lines['file']}")
    path.write_text(text.replace(old, lines.get("new", "")), encoding="utf-8")
    said = compiled(room, crate, tests=True)[1]
    path.write_text(text, encoding="utf-8")
    error = rf"^{re.escape(lines['file'])}:.*error\[{re.escape(lines['error'])}\]"
    if re.search(error, said, re.MULTILINE):
        return True
    print(f"{crate}: {edit.stem} isn't refused so:")
    for line in [line for line in said.splitlines() if "error" in line][:3]:
        print(line)
    return False


def are_refused(room, crates):
    """Whether every edit of the crates is refused, and there is one."""
    tried = refused = 0
    for crate in crates:
        for edit in sorted((room / "crates" / crate).glob("must-not-compile/*.edit")):
            tried, refused = tried + 1, refused + is_refused(room, crate, edit)
    print(f"{refused} of {tried} refused by the compiler")
    return refused == tried > 0
