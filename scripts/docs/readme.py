"""Says whether the examples of the README and the guide are code that the gate runs, and whether they compile.

Each block of Rattle's code in README.md and in docs/GUIDE.md has to be, line by line, in a file readme.rt or
readme_program.rt of a crate of worked examples: in one piece, except for what it imports, which the file has to import
too, and for lines of comment.
A block of Rust's code (```rs) has to be so in a program of bindings/rust/examples, which its tests compile.

To compile those of Rattle, each block is a module of its own, word by word, of a crate of tests in a copy of the
working tree, which `rt try` compiles; nothing is proved. It takes a minute.

All is well where each block is so, and each page has one of Rattle's code.
"""
import pathlib
import re
import subprocess
import tempfile

from krates_sources import ROOT, copy_tree

PAGES = ("README.md", "docs/GUIDE.md")
FILES = {"rust": "crates/*_tests/src/readme*.rt", "rs": "bindings/rust/examples/*.rs"}

# The crate whose modules are the blocks, what its line in crates.txt names, and its root file.
NAME = "page_blocks"
USES = "krates serde_json anyhow"
HEAD = """//! The blocks of the pages, each a module of its own.
#![tactic(auto)]

#[cfg(test)]
mod nothing {
    use std::test::Fail;

    #[test]
    fn nothing() -> Result<(), Fail> {
        Ok(())
    }
}
"""


def blocks(text, language):
    """The blocks of code in a language, without the lines that fence them."""
    return re.findall(rf"^```{language}\n(.*?)^```$", text, re.M | re.S)


def paths(tree, above=""):
    """The names that the tree of a `use` brings in, each with its whole path."""
    head, opened, inner = tree.strip().partition("{")
    if not opened:
        return {above + head}
    parts, depth, start = [], 0, 0
    inner = inner.rstrip().removesuffix("}")
    for at, sign in enumerate(inner + ","):
        depth += {"{": 1, "}": -1}.get(sign, 0)
        if sign == "," and depth == 0:
            parts.append(inner[start:at])
            start = at + 1
    return {path for part in parts if part.strip() for path in paths(part, above + head)}


def imports(text):
    """The names that a text imports, each with its whole path."""
    return {path for tree in re.findall(r"^use ([^;]*);", text, re.M) for path in paths(tree)}


def lines(text):
    """The lines of code: without imports, and without those that are blank or comments."""
    code = re.sub(r"^use [^;]*;\n", "", text, flags=re.M)
    return [line for line in code.splitlines() if line.strip() and not line.strip().startswith("//")]


def stands_in(block, file):
    """Whether the lines of the block stand in the file, in one piece, and the file imports what the block does."""
    wanted, there = lines(block), lines(file)
    pieces = (there[at : at + len(wanted)] for at in range(len(there)))
    return imports(block) <= imports(file) and wanted in pieces


def compare(examples, page, pattern):
    """Whether each block of the page is in one of these sources; prints those that aren't."""
    files = [path.read_text(encoding="utf-8") for path in sorted(ROOT.glob(pattern))]
    missing = [block for block in examples if not any(stands_in(block, file) for file in files)]
    for block in missing:
        print(f"{page}: {pattern} doesn't have the example that begins so:\n" + "\n".join(lines(block)[:3]))
    print(f"{page}: {len(examples) - len(missing)} of {len(examples)} examples are in {pattern}")
    return not missing


def pages(language):
    """The blocks of each page in a language."""
    return {page: blocks((ROOT / page).read_text(encoding="utf-8"), language) for page in PAGES}


def check():
    """Whether each block of each page is in a source, and each page has one of Rattle's code."""
    found = [(page, examples, FILES[language]) for language in FILES for page, examples in pages(language).items()]
    return all([compare(examples, page, pattern) for page, examples, pattern in found if examples]) and all(
        pages("rust").values()
    )


def write_crate(folder):
    """Makes the crate whose modules are the blocks, in a copy of the tree: its folder, and how many blocks it has."""
    source = folder / "crates" / NAME / "src"
    source.mkdir(parents=True)
    modules = []
    for page, examples in pages("rust").items():
        for number, block in enumerate(examples, 1):
            modules.append(f"{pathlib.Path(page).stem.lower()}_{number}")
            (source / f"{modules[-1]}.rt").write_text(block, encoding="utf-8")
    (source / "lib.rt").write_text(HEAD + "".join(f"mod {module};\n" for module in modules), encoding="utf-8")
    with open(folder / "crates.txt", "a", encoding="utf-8") as file:
        file.write(f"{NAME}: {USES}\n")
    return source.parent, len(modules)


def compile_all():
    """Whether the blocks of the pages compile, each as a module; prints what the compiler says where they don't."""
    with tempfile.TemporaryDirectory(prefix="pages-") as name:
        copy_tree(pathlib.Path(name))
        crate, count = write_crate(pathlib.Path(name))
        how = {"cwd": crate, "stdin": subprocess.DEVNULL, "stdout": subprocess.PIPE, "stderr": subprocess.STDOUT}
        ran = subprocess.run(["rt", "try", "--test"], encoding="utf-8", errors="replace", **how)
    if ran.returncode:
        print(ran.stdout, end="")
    else:
        print(f"{count} blocks compile as they stand")
    return ran.returncode == 0
