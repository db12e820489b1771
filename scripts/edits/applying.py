"""Says whether the edits of crates still apply: each old text is once in its file when its turn comes, and each line of
an edit is read. A line `why: ..` is a remark. Nothing is proved, compiled or run.

Prints each edit that doesn't apply with the text at fault, and then how many do.
"""
import re

FOLDERS = ("must-fail", "wrong-bodies", "must-not-compile")
LINE = re.compile(r"(file|old|error|why): (.+)|new:(?: (.*))?$")


def fault(at, edit):
    """What keeps an edit of the crate in a folder from being applied; None where nothing does."""
    name, old, texts, changes = "", "", {}, 0
    for line in edit.read_text(encoding="utf-8").splitlines():
        read = LINE.match(line)
        if not read:
            return f"a line that isn't read: {line}"
        if read[1] == "file":
            name = read[2]
            if not (at / name).is_file():
                return f"no such file: {name}"
            texts.setdefault(name, (at / name).read_text(encoding="utf-8"))
        elif read[1] == "old":
            old = read[2]
        elif read[1] is None:
            if not name or not old:
                return f"no file and old text before: {line}"
            count = texts[name].count(old)
            if count != 1:
                return f"stands {count} times in {name}: {old}"
            texts[name], old, changes = texts[name].replace(old, read[3] or ""), "", changes + 1
    return "an old text without a new one" if old else None if changes else "changes nothing"


def do_apply(room, crates):
    """Whether every edit of the crates applies, and there is one."""
    tried = faulty = 0
    for crate in crates:
        at = room / "crates" / crate
        for edit in sorted(one for folder in FOLDERS for one in at.glob(f"{folder}/*.edit")):
            said = fault(at, edit)
            tried += 1
            if said:
                faulty += 1
                print(f"{crate}: {edit.parent.name}/{edit.stem}: {said}")
    print(f"{tried - faulty} of {tried} edits apply")
    return tried > 0 and not faulty
