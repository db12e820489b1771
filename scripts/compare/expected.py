"""Compares the lists of krates-list and the graphs that are drawn with the lines that are expected of them.

These are beside it, in a file for each set of options: FOLDER/NAME/dev.list, or linux.graph, which may be
compressed too. A file that isn't there is skipped. The lines of a graph are those that
scripts/compare/drawn_graphs/drawing.rt.txt explains. Where a build is refused, the lines that are expected are `refused
(status 1)` and the refusal, of a graph without the `error: ` before it.

Prints the lines that differ, of a graph the first 20, as `diff` prints them.
"""
import pathlib
import re
import subprocess
import tempfile

from compare.programs import LINUX, SETTINGS, made_here, run
from krates_sources import documents, text_of

LISTS = {
    "none": [],
    "dev": ["--ignore-kind", "dev"],
    "build": ["--ignore-kind", "build"],
    "linux": LINUX,
    "windows": ["--target", "x86_64-pc-windows-msvc"],
    "workspace-dev": ["--workspace", "--ignore-kind", "dev"],
    "exclude": ["--exclude", "libc"],
}


def list_of(text, options):
    """The lines of the list, or its status and its refusal."""
    status, out, said = run("krates_list", options, text)
    return f"refused (status {status})\n{said}" if status else out


def graph_of(text, options):
    """The lines of the drawn graph, or its status and its refusal."""
    status, out, said = run("drawn_graphs", ["graph", "--metadata", "-", *options], text)
    return f"refused (status {status})\n" + re.sub(r"^error: ", "", said, flags=re.M) if status else out


def differences(wanted, answer):
    """The lines in which `diff` shows how the answer differs; none where it is what is expected."""
    if wanted == answer:
        return []
    with tempfile.TemporaryDirectory() as folder:
        places = [pathlib.Path(folder, "wanted"), pathlib.Path(folder, "answer")]
        for place, text in zip(places, (wanted, answer)):
            place.write_text(text, encoding="utf-8", newline="")
        told = subprocess.run(["diff", *places], stdout=subprocess.PIPE, check=False).stdout
    return told.decode().splitlines()


def compare_files(folder, kind, options_of, answer_of, limit=None):
    """Compares the files of a kind, with at most this many lines printed for each, and returns whether nothing differs and something was compared."""
    same = different = 0
    for document, text in documents(folder):
        for name, options in options_of.items():
            for path in (document.with_name(f"{name}.{kind}"), document.with_name(f"{name}.{kind}.gz")):
                if not path.is_file():
                    continue
                found = differences(text_of(path).decode(), answer_of(text, options))
                same, different = (same, different + 1) if found else (same + 1, different)
                if found:
                    print("\n".join([f"different: {path}", *found[:limit]]))
    print(f"{same} the same, {different} different")
    return same > 0 and different == 0


def lists(folder):
    """Compares the lists."""
    return compare_files(folder, "list", LISTS, list_of)


def graphs(folder):
    """Compares the drawn graphs."""
    with made_here("drawn_graphs"):
        return compare_files(folder, "graph", SETTINGS, graph_of, 20)
