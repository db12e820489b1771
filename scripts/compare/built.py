"""Compares what `units_of` derives about builds with the unit graphs that cargo printed for them.

The folder has these files, of which each may be compressed, as NAME.json.gz:

    cases.jsonl        a case a line: `name` and `words` of cargo build, the `resolver`, the names of the document `doc` and of the
                       unit graph `units`, and the `verdict`: `agree`, or `lost` where the document lacks what the rules ask for
    docs/NAME.json     a document
    units/NAME.json    a unit graph, as `cargo build --unit-graph` prints it
    cfg/TRIPLE.txt     what `rustc --print cfg` prints for a machine; $KRATES_CFG may name another folder for these files

The module `builds` says what is compared. Prints how many cases agree, how many are lost in both, how many differ, and the first
differences.
"""
import collections
import functools
import json
import os
from concurrent.futures import ThreadPoolExecutor

from compare.builds import SHOWN, Build
from compare.programs import made_here
from krates_sources import text_of

HOST = "x86_64-unknown-linux-gnu"
AT_ONCE = 2


def file_of(folder, name):
    """The text of a file that may be compressed."""
    for path in (folder / name, folder / f"{name}.gz"):
        if path.is_file():
            return text_of(path)
    raise FileNotFoundError(folder / name)


@functools.lru_cache(maxsize=8)
def document_of(folder, name):
    """A document."""
    return file_of(folder / "docs", f"{name}.json")


def answer(folder, case):
    """`agree`, `lost`, or the differences of a case."""
    cfg = os.environ.get("KRATES_CFG", str(folder / "cfg"))
    build = Build((case["resolver"], cfg, HOST), case["words"], document_of(folder, case["doc"]))
    if case["verdict"] == "lost":
        return "lost" if build.facts["lost"] and build.facts["refused"] else ["nothing is lost here"]
    graph = file_of(folder / "units", case["units"].removesuffix(".gz"))
    return build.differences(graph) or "agree"


def compare(folder):
    """Compares the cases of a folder, and returns whether none differs and there is one."""
    try:
        cases = [json.loads(line) for line in file_of(folder, "cases.jsonl").splitlines()]
    except FileNotFoundError as error:
        print(f"there is no file {error}")
        return False
    counts, first = collections.Counter(), []
    with made_here("built_units"), ThreadPoolExecutor(AT_ONCE) as pool:
        answers = pool.map(lambda case: answer(folder, case), cases)
        for case, found in zip(cases, answers):
            counts[found if isinstance(found, str) else "differ"] += 1
            if not isinstance(found, str) and len(first) < SHOWN:
                first.append((case, found))
    for case, found in first:
        lines = [f"different: {case['doc']}, resolver {case['resolver']}: {' '.join(case['words'])}", *found[:SHOWN]]
        print("\n".join(ascii(line) for line in lines))
    print(f"{counts['agree']} agree, {counts['lost']} are lost in both, {counts['differ']} differ")
    return len(cases) > 0 and not counts["differ"]
