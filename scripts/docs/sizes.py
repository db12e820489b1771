"""Writes the sizes of the crates into docs/MEASURED.md, under the heading Size, or says whether they are what it would write.

Lines are those of the files, blank ones and comments too. Functions are those that are written, and not those that a derive writes.
"""
import re
import sys

from krates_sources import ROOT, crates

PAGE = ROOT / "docs" / "MEASURED.md"

# The crates that have a row together, under its name.
TOGETHER = {
    "`krates_cli`, `krates_list`": ("krates_cli", "krates_list"),
    "`krates_certificate`, `krates_verdict`": ("krates_certificate", "krates_verdict"),
    "`krates_build_certificate`, `krates_build_verdict`": ("krates_build_certificate", "krates_build_verdict"),
    "`krates_foreign`, `krates_c`": ("krates_foreign", "krates_c"),
    "`krates_words`, `krates_report`, `krates_build_report`, `krates_host`, the programs": (
        "krates_words",
        "krates_report",
        "krates_build_report",
        "krates_host",
        "cargo_krates",
        "krates_check",
    ),
    "samples and tests": (
        "fake_cargo",
        "krates_samples",
        "krates_basic_tests",
        "krates_build_tests",
        "krates_built_tests",
        "krates_program_tests",
    ),
}

TEXT = """## Size

Lines, and functions without those that derives write. Edits are wrong bodies: {edits}, {must_fail} of them in `must-fail/`;
besides, {must_not_compile} must not compile. `scripts/docs.py sizes` counts, and [HEADLINE](HEADLINE.md) says how much of the
definitions a reader of the headline has to believe.

| Crate | Code | Definitions | Proofs | Functions | Edits |
|---|---|---|---|---|---|
{rows}

"""
PART = re.compile(r"^## Size\n.*?(?=^## )", re.M | re.S)
FUNCTION = re.compile(r'^\s*(?:pub(?:\([^)]*\))? )?(?:(?:const|unsafe|extern "C") )*fn \w+', re.M)


def texts(crate, pattern):
    """The texts of the files of a crate that fit a pattern."""
    return [path.read_text(encoding="utf-8") for path in (ROOT / "crates" / crate).glob(pattern)]


def counts(crate):
    """The numbers in a crate's row."""
    lines = [sum(text.count("\n") for text in texts(crate, f"{part}/**/*.*t")) for part in ("src", "specs", "proofs")]
    functions = sum(len(FUNCTION.findall(text)) for text in texts(crate, "src/**/*.rt"))
    return [*lines, functions, sum(len(texts(crate, f"{kind}/*.edit")) for kind in ("wrong-bodies", "must-fail"))]


def row(name, numbers):
    """A row of the table."""
    return "| " + " | ".join([name, *(f"{number:,}" for number in numbers)]) + " |"


def written():
    """The part of the page that has the sizes."""
    names = {crate: name for name, members in TOGETHER.items() for crate in members}
    sums = {}
    for crate in crates():
        name = names.get(crate, f"`{crate}`")
        sums[name] = [one + more for one, more in zip(sums.get(name, [0] * 5), counts(crate))]
    whole = [sum(column) for column in zip(*sums.values())]
    # those that have a row together come last
    order = sorted(sums, key=lambda name: list(TOGETHER).index(name) if name in TOGETHER else -1)
    kinds = {kind: sum(len(texts(crate, f"{kind}/*")) for crate in crates()) for kind in ("must-fail", "must-not-compile")}
    return TEXT.format(
        edits=whole[-1],
        must_fail=kinds["must-fail"],
        must_not_compile=kinds["must-not-compile"],
        rows="\n".join([row(name, sums[name]) for name in order] + [row("all", whole)]),
    )


def write():
    """Writes the sizes."""
    page = PAGE.read_text(encoding="utf-8")
    PAGE.write_text(PART.sub(lambda _: written(), page, count=1), encoding="utf-8")


def check():
    """Whether the page has these sizes; says so if it hasn't."""
    is_right = written() in PAGE.read_text(encoding="utf-8")
    if not is_right:
        print("docs/MEASURED.md: the sizes are others: scripts/docs.py sizes writes them", file=sys.stderr)
    return is_right
