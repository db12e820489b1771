"""Says whether what the pages show of the programs is what these print about the documents in examples/.

That is each block of README.md and docs/GUIDE.md that begins with a line `$ COMMAND`. The commands are run in the order
of the page, in a folder where examples/ is, and each has to print the lines behind it, until the next command.

The programs are those that scripts/try_tests.sh compiled without a proof, or those that the variables $CARGO_KRATES,
$KRATES_CHECK and $KRATES_LIST name. With --compile they are compiled if need be, in minutes; otherwise the check fails
where one is of other sources, since nothing can be compared.
"""
import os
import pathlib
import re
import subprocess
import sys
import tempfile

from krates_sources import ROOT

PAGES = ("README.md", "docs/GUIDE.md")
TRIED = ROOT / "out/tried"
PROGRAMS = {"cargo-krates": "cargo_krates", "krates_check": "krates_check", "krates-list": "krates_list"}

BLOCK = re.compile(r"^```\n(\$ .*?)^```$", re.M | re.S)


def found(may_compile):
    """The programs by their names, or nothing where one isn't there as it is compiled of these sources; says so then."""
    given = {shown: os.environ.get(crate.upper()) for shown, crate in PROGRAMS.items()}
    wanted = [PROGRAMS[shown] for shown, path in given.items() if not path]
    if wanted:
        words = [ROOT / "scripts/try_tests/kept.sh", "tried", TRIED, *["--no-compiling"] * (not may_compile), *wanted]
        ran = subprocess.run(words, cwd=ROOT, text=True, stdout=subprocess.PIPE, check=False)
        if ran.returncode:
            print(ran.stdout.strip(), file=sys.stderr)
            return {}
    return {shown: path or TRIED / f"{PROGRAMS[shown]}.tried" for shown, path in given.items()}


def asked(block):
    """The commands of a block, each with the text that it has to print."""
    for part in re.split(r"^\$ ", block, flags=re.M)[1:]:
        command, _, printed = part.partition("\n")
        yield command, printed


def is_as_shown(page, command, printed, how):
    """Whether a command prints what a page shows; says what it prints otherwise."""
    ran = subprocess.run(["bash", "-c", command], **how, stdout=subprocess.PIPE, stderr=subprocess.STDOUT, check=False)
    told = ran.stdout.decode(errors="backslashreplace")
    if told != printed:
        print(f"{page}: $ {command}\nprints:\n{told}and the page has:\n{printed}", end="")
    return told == printed


def compare(programs):
    """Whether every command of the pages prints what is shown."""
    right = []
    for page in PAGES:
        with tempfile.TemporaryDirectory(prefix="examples-") as name:
            room = pathlib.Path(name)
            (room / "bin").mkdir()
            for shown, path in programs.items():
                (room / "bin" / shown).symlink_to(path)
            (room / "examples").symlink_to(ROOT / "examples")
            how = {"cwd": room, "env": {**os.environ, "PATH": f"{room / 'bin'}:{os.environ['PATH']}"}}
            blocks = BLOCK.findall((ROOT / page).read_text(encoding="utf-8"))
            told = [is_as_shown(page, *pair, how) for block in blocks for pair in asked(block)]
        print(f"{page}: {sum(told)} of {len(told)} commands print what is shown")
        right += told
    return all(right) and bool(right)


def check(may_compile=False):
    """Whether every command prints what is shown; says what to run where the programs aren't there."""
    programs = found(may_compile)
    if programs:
        return compare(programs)
    print("what the pages show of the programs can't be compared: first run scripts/try_tests.sh", file=sys.stderr)
    return False


def compile_all():
    """The same with programs that are compiled if need be."""
    return check(True)
