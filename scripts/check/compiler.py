"""What both words need: the toolchain's folder, and what its compiler is given for every crate."""
import pathlib
import shutil
import subprocess
import sys

# What a line of crates.txt doesn't name and the compiler wants for each crate.
ALWAYS = ["std"]


def kit():
    """The folder of the toolchain whose `rt` is on the path."""
    found = shutil.which("rt")
    if not found:
        sys.exit("rt isn't on the path")
    return pathlib.Path(found).resolve().parent.parent


def of_kit(known, names):
    """The libraries of the toolchain that these crates of a repository use, each once."""
    return list(dict.fromkeys(ALWAYS + [one for name in names for one in known[name] if one not in known]))


def as_built(libraries):
    """The compiler's words for libraries of the toolchain, as they are built."""
    at = kit()
    return [word for one in libraries for word in ("--extern", f"{one}={at}/rlibs/{one}.rlib")]


def found_in(folders):
    """The compiler's words for where the libraries below are: those of the toolchain, and in these folders."""
    return [word for folder in [kit() / "rlibs", *folders] for word in ("-L", f"dependency={folder}")]


def words(root, name, libraries):
    """The compiler's words for a crate of a repository, whatever is asked of it; among them those for its libraries."""
    at = kit()
    source = "src/main.rt" if (root / "crates" / name / "src/main.rt").exists() else "src/lib.rt"
    logic = ["--antt-project", at / "rattle/logic/antt-project.json", "--logic-built", at / "logic_built"]
    return ["--crate-name", name, source, *libraries, *logic, "--links", f"{name}=", "--jobs", "1"]


def ran(root, name, given, **how):
    """How the compiler ends with these words in the folder of a crate."""
    line = [str(word) for word in [kit() / "bin/rattle", *given]]
    return subprocess.run(line, cwd=root / "crates" / name, stdin=subprocess.DEVNULL, check=False, **how)
