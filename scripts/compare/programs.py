"""The programs that are asked, and the settings under which they are asked."""
import contextlib
import os
import pathlib
import subprocess
import tempfile

from krates_sources import ROOT

LINUX = ["--target", "x86_64-unknown-linux-gnu"]
SETTINGS = {"none": [], "linux": LINUX}


def program(crate):
    """The program of a crate: that of the variable with its name, or what `rt run` builds in its folder."""
    return os.environ.get(crate.upper(), str(ROOT / "crates" / crate / "out" / crate))


@contextlib.contextmanager
def made_here(name):
    """While this lasts, there is the program that scripts/compare/program.sh makes of the folder NAME, if no variable names another one."""
    with tempfile.TemporaryDirectory() as folder:
        if name.upper() not in os.environ:
            made = pathlib.Path(folder) / name
            subprocess.run([ROOT / "scripts" / "compare" / "program.sh", name, made], check=True)
            os.environ[name.upper()] = str(made)
        yield


def is_there(crate):
    """Whether the program of a crate can be run."""
    return os.access(program(crate), os.X_OK)


def run(crate, words, text=b""):
    """How the program of a crate ends on this standard input: its status, standard output and standard error."""
    ran = subprocess.run([program(crate), *words], input=text, capture_output=True, check=False)
    # a run that a signal ends has the status that a shell gives it
    status = ran.returncode if ran.returncode >= 0 else 128 - ran.returncode
    return status, *(it.decode(errors="backslashreplace") for it in (ran.stdout, ran.stderr))


def printed(crate, words, text=b"", statuses=(0,)):
    """What the program of a crate prints, which has to end with one of these statuses."""
    status, out, said = run(crate, words, text)
    assert status in statuses, (words, status, said)
    return out
