"""Tries the wrong bodies of crates: edits of src/ that turn the meaning of a function, which the proof has to refuse.

Tried are the edits in crates/CRATE/must-fail/, which the gate tries too, and those in crates/CRATE/wrong-bodies/,
which have the same form. Libraries that are built here needn't be built again; crates are tried side by side.

Prints, as each crate ends, each edit that isn't refused, or only because a proof names what the edit took away, which
says little of the contract; and then how many were refused, how many of them only by a name, how many were proved,
each of which shows a contract to strengthen, and how many couldn't be applied. An edit of a function that only tests
have is called proved, since no test is checked: try it by rt check --test.
"""
import concurrent.futures
import os
import re
import shutil
import subprocess

from krates_sources import below, copy_libraries, crates, files

LINE = re.compile(r"file: |old: |new:|why: ")
TOLD = re.compile(r"NOT REFUSED|BAD EDIT|says little")

# How `rt must-fail` says that an edit was refused, was refused only by a name, was proved, and couldn't be applied.
ENDINGS = (": refused, as it must be", "says little", ": NOT REFUSED", ": BAD EDIT")


def edits_of(room, crate):
    """The edits of a crate that are tried."""
    return sorted((room / "crates" / crate / "must-fail").glob("*.edit"))


def gather(room, names):
    """Puts the edits of both folders of each crate into the one that is tried; the crates that have some."""
    for crate in names:
        at = room / "crates" / crate
        for edit in sorted(at.glob("wrong-bodies/*.edit")):
            (at / "must-fail").mkdir(exist_ok=True)
            shutil.copy(edit, at / "must-fail")
    return [crate for crate in names if edits_of(room, crate)]


def are_read_whole(room):
    """Whether each line of each edit is read, as the second of a text on two lines isn't; prints those that aren't."""
    unread = [
        f"{edit.relative_to(room)}:{number}:{line}"
        for edit in sorted(room.glob("crates/*/must-fail/*.edit"))
        for number, line in enumerate(edit.read_text(encoding="utf-8").splitlines(), 1)
        if not LINE.match(line)
    ]
    for line in unread:
        print(line)
    return not unread


def are_built(room, tried):
    """Builds the libraries below these crates, before several ask for one at the same time, and returns whether all are built."""
    known = crates()
    for crate in dict.fromkeys(one for name in tried for one in below(known, name)):
        ran = rt(room / "crates" / crate, "lib")
        if ran.returncode:
            print(ran.stdout, end="")
            return False
    return True


def rt(folder, *words):
    """How `rt` ends in a folder: its status, and all that it prints."""
    how = {"stdin": subprocess.DEVNULL, "stdout": subprocess.PIPE, "stderr": subprocess.STDOUT}
    return subprocess.run(["rt", *words], cwd=folder, encoding="utf-8", errors="replace", check=False, **how)


def work(room, crate):
    """How much there is to try, by which the crates are put in order."""
    lines = sum(path.read_text(encoding="utf-8").count("\n") for path in files(room / "crates" / crate / "src"))
    return len(edits_of(room, crate)) * lines, crate


def is_crate_refused(room, crate):
    """Tries the edits of a crate, prints at once how they ended, and returns whether every one was refused."""
    said = rt(room, "must-fail", crate).stdout.splitlines()
    refused, named, proved, bad = (sum(part in line for line in said) for part in ENDINGS)
    count = len(edits_of(room, crate))
    told = [line for line in said if TOLD.search(line)]
    said = f"{refused} refused, {named} of them only by a name, {proved} proved, {bad} not applied, of {count}"
    told.append(f"{crate}: {said}")
    # one write, since others print at the same time
    print("".join(f"{line}\n" for line in told), end="", flush=True)
    return refused == count


def are_refused(room, names):
    """Whether every edit of the crates is refused, and there is one."""
    copy_libraries(room)
    tried = gather(room, names)
    if not are_read_whole(room) or not are_built(room, tried):
        return False
    # the crates with most to try first, so that none is left over at the end
    tried.sort(key=lambda crate: work(room, crate), reverse=True)
    pool = concurrent.futures.ThreadPoolExecutor(len(os.sched_getaffinity(0)))
    try:
        results = list(pool.map(lambda crate: is_crate_refused(room, crate), tried))
    finally:
        # a run that is ended early begins no further crate
        pool.shutdown(cancel_futures=True)
    return bool(results) and all(results)
