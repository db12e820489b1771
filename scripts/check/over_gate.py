"""Checks a crate over the libraries that the gate left in this folder, in a minute or two.

The gate leaves only statements, from which `rt` makes nothing else: `rt check` and `rt lib` first build each library
below a crate anew, for an hour. The compiler takes them. What a check keeps is in crates/CRATE/out/over_gate, for
the next one. Nothing of this counts for the gate.

The status is the compiler's, and 2 where a library isn't there: run `rt ci` first, in this folder.
"""
import pathlib
import sys

from check import compiler
from krates_sources import ROOT, below, crates


def rlib(name):
    """Where the library of a crate is left."""
    return ROOT / "crates" / name / "out/rlib" / f"{name}.rlib"


def is_static(name):
    """Whether a static library is made of a crate."""
    lines = (ROOT / "crates.txt").read_text(encoding="utf-8").splitlines()
    return any(line.split(":")[0].split() == [name, "staticlib"] for line in lines)


def libraries(name):
    """The compiler's words for what the crate needs: the libraries of the toolchain and those of the repository, all as built."""
    known = crates()
    found = below(known, name)
    missing = [one for one in found if not rlib(one).is_dir()]
    if missing:
        print(f"not built here: {' '.join(missing)}: run rt ci first", file=sys.stderr)
        sys.exit(2)
    own = [word for one in known[name] if one in known for word in ("--extern", f"{one}={rlib(one)}")]
    return [*compiler.as_built(compiler.of_kit(known, [name])), *own, *compiler.found_in(rlib(one).parent for one in found)]


def words(name, given):
    """The compiler's words for what is asked."""
    common = [*compiler.words(ROOT, name, libraries(name)), *["--crate-type", "staticlib"] * is_static(name)]
    if given == ["--build"]:
        rlib(name).parent.mkdir(parents=True, exist_ok=True)
        return ["build", *common, "--statements", "-o", rlib(name)]
    if given[:1] == ["--archive"]:
        return ["build", *common, "--toolchain", compiler.kit() / "toolchain", "-o", pathlib.Path(given[1]).resolve()]
    kept = ROOT / "crates" / name / "out/over_gate"
    kept.mkdir(parents=True, exist_ok=True)
    return ["check", *common, "--incremental", kept, *given]


def status(name, given):
    """How the compiler ends with what is asked of a crate."""
    return compiler.ran(ROOT, name, words(name, given)).returncode
