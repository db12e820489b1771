"""Compiles a crate of a repository without building anything: the libraries below it are read as sources.

Nothing is proved but the functions that --only names, and what they call, in the crates below too: in minutes where
they call little. All is well where the crate compiles and those functions are proved. `rt check --only` says the same,
but builds the libraries below first.
"""
import re
import subprocess

from check import compiler
from krates_sources import below, crates


def words(root, name, tests, only):
    """The compiler's words for the crate: the libraries of the toolchain as built, those of the repository as sources."""
    known = crates(root)
    libraries = below(known, name)
    given = [*compiler.as_built(["core", *compiler.of_kit(known, [*libraries, name])]), *compiler.found_in([])]
    for one in libraries:
        used = ",".join(dict.fromkeys(["core", *compiler.ALWAYS, *known[one]]))
        given += ["--lib", f"{one}:{used}={root}/crates/{one}/src/lib.rt"]
    # where the part to prove is empty, nothing is proved
    parts = [word for function in only or [""] for word in ("--only", function)]
    return ["check", *compiler.words(root, name, given), *parts, *["--test"] * tests]


def compiled(root, name, tests=False, only=()):
    """Whether the crate compiles and these functions are proved, and what the compiler says."""
    how = {"stdout": subprocess.PIPE, "stderr": subprocess.STDOUT, "encoding": "utf-8", "errors": "replace"}
    said = compiler.ran(root, name, words(root, name, tests, only), **how).stdout
    counts = re.search(r"^only=(\d+) proved=(\d+)", said, re.M) if only else None
    proved = not only or bool(counts and counts[1] == counts[2] != "0")
    return bool(re.search(r"^only=", said, re.M)) and proved, said


def check(root, name, tests, only):
    """Whether the crate compiles and these functions are proved; prints what the compiler says."""
    compiles, said = compiled(root, name, tests, only)
    print(said, end="")
    return compiles
