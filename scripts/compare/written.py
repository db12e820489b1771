"""Reads each document of a folder, writes it as JSON, and reads what was written.

Prints the documents for which that isn't the same, field by field, or that aren't read.

The program that does it is made in a copy of the working tree, where libraries that are built here need not be built
again.
"""
import pathlib
import subprocess
import sys
import tempfile

from krates_sources import copy_libraries, copy_tree, crates, documents

# The program, and the crates that it uses.
NAME = "compare_written"
USED = ("krates_text", "krates_cm", "krates_cm_json")
SOURCE = """//! Whether a document that is written is read as it was.
#![tactic(auto)]

use krates_cm::Metadata;
use krates_cm_json::{ToValue, parse};
use std::alloc::Global;
use std::{env, fs};

fn fields(alloc: Global, document: &Metadata) -> Result<String, anyhow::Error> {
    Ok(format!(in alloc; "{document:?}")?)
}

fn is_same(alloc: Global, text: &str) -> Result<bool, anyhow::Error> {
    let document = parse(alloc, text)?;
    let written = document.to_value(alloc)?.to_string(alloc)?;
    let again = parse(alloc, written.as_str())?;
    Ok(fields(alloc, &document)? == fields(alloc, &again)?)
}

fn main(rt: HostRuntime) -> Result<(), anyhow::Error> {
    for name in env::args(&rt)?.skip(1) {
        let text = fs::read_to_string(&rt, name.as_str())?;
        match is_same(rt.alloc(), text.as_str()) {
            Ok(true) => println!(rt; "{name}: same")?,
            Ok(false) => println!(rt; "{name}: another")?,
            Err(error) => println!(rt; "{name}: {error}")?,
        }
    }
    Ok(())
}
"""


def write_crates(room):
    """Copies the crates that are used, with their libraries that are built, and makes the program's crate."""
    copy_tree(room, [f"crates/{crate}" for crate in USED])
    known = crates()
    lines = [f"{crate}: {' '.join(known[crate])}" for crate in USED] + [f"{NAME}: {' '.join(USED)} anyhow"]
    (room / "crates.txt").write_text("".join(f"{line}\n" for line in lines), encoding="utf-8")
    for crate in USED:
        copy_libraries(room, crate)
    source = room / "crates" / NAME / "src"
    source.mkdir(parents=True)
    (source / "main.rt").write_text(SOURCE, encoding="utf-8")


def ended(room, crate, *words):
    """How `rt` ends in the folder of a crate: its status and what it prints."""
    how = {"encoding": "utf-8", "errors": "replace", "capture_output": True, "check": False}
    return subprocess.run(["rt", *words], cwd=room / "crates" / crate, **how)


def compare(folder):
    """Compares the documents of a folder, and returns whether each is read as it was, and there is one."""
    with tempfile.TemporaryDirectory() as name:
        room = pathlib.Path(name)
        write_crates(room)
        for crate in USED:
            ran = ended(room, crate, "lib")
            if ran.returncode:
                print(ran.stdout + ran.stderr, end="")
                return False
        names = []
        for path, text in documents(folder):
            names.append(room / f"{path.parent.name}.json")
            names[-1].write_bytes(text)
        if not names:
            print(f"no document in {folder}", file=sys.stderr)
            return False
        ran = ended(room, NAME, "run", "--", *names)
    if ran.returncode:
        print(ran.stdout + ran.stderr, end="", file=sys.stderr)
        return False
    answers = [line.removeprefix(f"{room}/") for line in ran.stdout.splitlines() if line.startswith(f"{room}/")]
    same = sum(line.endswith(": same") for line in answers)
    for line in answers:
        if not line.endswith(": same"):
            print(line)
    print(f"{same} of {len(names)} documents are read as they were")
    return same == len(names)
