"""Damages documents of cargo metadata, gives each to krates-list, and looks at how it ends.

A document is FOLDER/NAME/metadata.json, which may be compressed, as metadata.json.gz. From all of them COUNT damaged ones are
made, 20,000 where none is given, the same in every run: texts that are cut off at each 997th byte, and documents in which one
key is gone, one value is of another type, or one id has an odd form. In each the program has to end by itself, with status 0
or 1; with status 1 nothing is on standard output, and standard error has one of the written refusals, on one line.

The program is crates/krates_list/out/krates_list, which `rt run` in that folder builds, or $KRATES_LIST. Each run that ends
otherwise is reported, and what was given to it is kept in a folder that is named. At the end comes a tally by damage and ending.
All is well where every run ended as it has to, and there was one.
"""
import collections
import concurrent.futures
import json
import os
import pathlib
import random
import re
import subprocess
import sys
import tempfile

from krates_sources import ROOT, documents

STEP = 997
SECONDS = 60

# What is printed of each cause of a refusal; an id or a name in it may be any text.
REFUSALS = [
    r"failed to interpret `cargo metadata`'s json: .*",
    r"no resolution graph was provided",
    r"invalid package id: .*",
    r"doubled id: .*",
    r"lost (package|node): .*",
    r"lost feature: .* of .*",
    r"undeclared dependency: .* of .*",
    r"no root crates available",
    r"too many nodes or edges",
    r"(read failed|input is not UTF-8|write failed)",
    r"out of memory",
]
REFUSAL = re.compile("refused: (" + "|".join(REFUSALS) + ")\n", re.DOTALL)

ODD_IDS = [
    "", " ", "a", "a 1.0.0", "a 1.0.0 (", "a 1.0.0 ()", "a b (c)", "#", "#a", "#a@", "x#1", "path+#1.0.0", "path+file:///w/a",
    "path+file:///w/a#", "path+file:///w/a#1", "path+file:///w/a#@1.0.0", "path+file:///w/%#1.0.0", "git+x?branch=%zz#a@1.0.0",
    "git+x?branch=%C3%28#a@1.0.0", "registry+https://x#a@1.0.0.0", "a 1.0.0 (path+file:///w/a) ", "\u0000", "\u00e4 1.0.0 (x)",
]
OTHER_VALUES = [None, True, 0, -1, 1.5, 1e300, "", "x", [], [None], {}, {"": 0}, [[[]]]]


def places(value, path=()):
    """The way to each value below one."""
    children = value.items() if isinstance(value, dict) else enumerate(value) if isinstance(value, list) else ()
    for key, child in children:
        yield path + (key,)
        yield from places(child, path + (key,))


def changed(value, path, change):
    """The value with what is at the end of the way changed; what isn't on the way is shared."""
    copy = dict(value) if isinstance(value, dict) else list(value)
    if len(path) > 1:
        copy[path[0]] = changed(value[path[0]], path[1:], change)
    else:
        change(copy, path[0])
    return copy


def remove(holder, key):
    """Takes a key away, with what it holds."""
    del holder[key]


def damaged(texts, count):
    """A name of the damage, and the damaged text, as many as are requested."""
    chance = random.Random(2026)
    cuts = [("cut", text[:end]) for text in texts for end in range(0, len(text), STEP)]
    chance.shuffle(cuts)
    yield from cuts[: count // 4]
    values = [json.loads(text) for text in texts]
    ways = [list(places(value)) for value in values]
    keys = [[way for way in some if isinstance(way[-1], str)] for some in ways]
    ids = [[way for way in some if "id" in way[-1:] or "pkg" in way[-1:] or way[-2:-1] in (("dependencies",), ("workspace_members",))]
           for some in ways]
    for number in range(count - min(len(cuts), count // 4)):
        at = chance.randrange(len(values))
        kind = ("key gone", "other type", "odd id")[number % 3]
        if kind == "key gone":
            value = changed(values[at], chance.choice(keys[at]), remove)
        elif kind == "other type":
            other = chance.choice(OTHER_VALUES)
            value = changed(values[at], chance.choice(ways[at]), lambda holder, key: holder.__setitem__(key, other))
        else:
            odd = chance.choice(ODD_IDS)
            value = changed(values[at], chance.choice(ids[at]), lambda holder, key: holder.__setitem__(key, odd))
        yield kind, json.dumps(value).encode()


def ending(program, text):
    """How a run ended, and whether it has to end so."""
    try:
        run = subprocess.run([program], input=text, capture_output=True, timeout=SECONDS, check=False)
    except subprocess.TimeoutExpired:
        return "no end", False
    said = run.stderr.decode("utf-8", "replace")
    if run.returncode == 0:
        return "listed", said == ""
    if run.returncode == 1:
        cause = REFUSAL.fullmatch(said)
        name = next((it for it in REFUSALS if cause and re.fullmatch(it, cause[1], re.DOTALL)), "no written refusal")
        return name, cause is not None and run.stdout == b""
    return f"status {run.returncode}", False


def chunks(items, size):
    """The items in lists of at most the size, so that not all are held at once."""
    some = []
    for it in items:
        some.append(it)
        if len(some) == size:
            yield some
            some = []
    if some:
        yield some


def damage(folder, count):
    """Whether the program ends as it has to on this many damaged documents of a folder, and there is one; prints a tally."""
    program = os.environ.get("KRATES_LIST", str(ROOT / "crates/krates_list/out/krates_list"))
    texts = [text for _, text in documents(folder)]
    if not texts or not os.access(program, os.X_OK):
        sys.exit("there is no document, or no program: run 'rt run < stdin' in crates/krates_list")
    kept = tempfile.mkdtemp(prefix="damaged-")
    tally, wrong = collections.Counter(), 0
    with concurrent.futures.ThreadPoolExecutor(os.cpu_count()) as pool:
        for some in chunks(damaged(texts, count), 256):
            for (kind, text), (end, right) in zip(some, pool.map(lambda it: ending(program, it[1]), some)):
                tally[kind, end] += 1
                if not right:
                    wrong += 1
                    path = os.path.join(kept, f"{wrong}.json")
                    pathlib.Path(path).write_bytes(text)
                    print(f"{kind}: {end}: {path}")
    for (kind, end), times in sorted(tally.items()):
        print(f"{times:7} {kind}: {end}")
    print(f"{sum(tally.values())} documents, {wrong} ended otherwise than they have to")
    if not wrong:
        os.rmdir(kept)
    return bool(tally) and not wrong
