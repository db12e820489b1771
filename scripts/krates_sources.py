"""What the scripts share: the crates and their sources, the public calls, a copy of the tree, and documents to try.

A module without a command of its own.
"""
import gzip
import pathlib
import re
import shutil
import subprocess
import sys
from dataclasses import dataclass

ROOT = pathlib.Path(__file__).resolve().parent.parent

IMPL = re.compile(r"^impl(?:<[^>]*>)? (?:[\w<>' ,:]+ for )?(\w+)")
CALL = re.compile(r'^( *)pub (?:(?:const|unsafe|extern "C") )*fn (\w+)')
OF_A_VALUE = re.compile(r" *pub [\w ]*fn \w+(?:<[^(]*>)?\(\s*&?(?:'\w+ )?(?:mut )?self\b")
GIVEN_AGAIN = re.compile(r"\bpub use ([^;]*);")
PRIVATE = re.compile(r"^mod (\w+);", re.MULTILINE)


def wrong_words(usage, cause):
    """Says what is wrong with the words of a command, and how it is used, and returns the status for that."""
    print(f"{cause}\n\n{usage.strip()}", file=sys.stderr)
    return 2


def do_word(usage, words, given):
    """Does what the first word of a command asks, with those after it, and returns the status."""
    word = (given or [""])[0]
    if word not in words:
        return wrong_words(usage, f"no such word: {word}" if word else "a word is missing")
    return words[word](given[1:])


def crates(root=ROOT):
    """The crates of a repository in the order of its crates.txt, each with the libraries that its line names."""
    lines = [line.split("#")[0] for line in (root / "crates.txt").read_text(encoding="utf-8").splitlines()]
    pairs = [line.split(":") for line in lines if ":" in line]
    # after the name may be what is made from the crate
    return {name.split()[0]: rest.split() for name, rest in pairs}


def below(known, name):
    """The libraries of the repository below a crate, each after those that it uses."""
    found = []
    for one in known[name]:
        if one in known:
            found += [it for it in below(known, one) + [one] if it not in found]
    return found


def files(source):
    """The source files of a crate, whose folder src/ this is."""
    return sorted(source.rglob("*.rt"))


def libraries(left_out=()):
    """The folders src/ of the library crates whose calls are promised: of all but those of tests alone."""
    for root in sorted(ROOT.glob("crates/*/src/lib.rt")):
        crate = root.parent.parent.name
        if not crate.endswith("_tests") and crate not in left_out:
            yield root.parent


@dataclass(frozen=True)
class Call:
    """A public call: its file and line, the type that has it, if any, its name, and whether it takes such a value."""

    path: pathlib.Path
    line: int
    owner: str | None
    name: str
    is_method: bool


def is_reached(source, path):
    """Whether each module on the way from the crate's root to the file is public or re-exported."""
    at = source / "lib.rt"
    for module in path.relative_to(source).with_suffix("").parts:
        text = at.read_text(encoding="utf-8")
        if module != "lib" and not re.search(rf"^pub mod {module};|^pub use (?:\w+::)*{module}\b", text, re.M):
            return False
        at = at.parent / ("" if at.name == "lib.rt" else at.stem) / f"{module}.rt"
    return True


def is_nowhere_private(source, path):
    """Whether no module on the way from the crate's root to the file is declared as its own."""
    parts = path.relative_to(source).with_suffix("").parts
    parents = [source / "lib.rt"] + [source.joinpath(*parts[:n]).with_suffix(".rt") for n in range(1, len(parts))]
    return all(part not in PRIVATE.findall(parent.read_text(encoding="utf-8")) for part, parent in zip(parts, parents))


def given_again(source):
    """The words of what a crate re-exports by `pub use`."""
    texts = (path.read_text(encoding="utf-8") for path in files(source))
    return {word for text in texts for items in GIVEN_AGAIN.findall(text) for word in re.findall(r"\w+", items)}


def public_calls(source):
    """The public calls of a library crate, file by file in the order of their lines.

    A public call is a `pub fn` that another crate may reach: a method, of whichever type, or a function that a
    `pub use` re-exports, or that is in a file whose modules, from the crate's root on, are all public or re-exported,
    or none of them private.
    """
    names = given_again(source)
    for path in files(source):
        is_open = is_reached(source, path) or is_nowhere_private(source, path)
        owner, lines = None, path.read_text(encoding="utf-8").splitlines()
        for number, line in enumerate(lines):
            if line.startswith("}"):
                owner = None
            if found := IMPL.match(line):
                owner = found[1]
            found = CALL.match(line)
            if found and (found[1] or owner or is_open or found[2] in names):
                is_method = bool(OF_A_VALUE.match("\n".join(lines[number : number + 2])))
                yield Call(path, number + 1, owner, found[2], is_method)


def copy_tree(room, within=()):
    """Copies into a folder what git knows or would add and what is there: all, or what is within these folders."""
    words = ["git", "ls-files", "-z", "--cached", "--others", "--exclude-standard", "--", *within]
    for name in subprocess.run(words, cwd=ROOT, check=True, stdout=subprocess.PIPE).stdout.decode().split("\0"):
        if name and (ROOT / name).is_file():
            (room / name).parent.mkdir(parents=True, exist_ok=True)
            shutil.copy2(ROOT / name, room / name)


def copy_libraries(room, crate="*"):
    """Copies the libraries that are built here, all or that of one crate, so that they needn't be built again."""
    for library in sorted(ROOT.glob(f"crates/{crate}/out/rlib")):
        shutil.copytree(library, room / library.relative_to(ROOT))


def documents(folder):
    """The documents FOLDER/NAME/metadata.json and metadata.json.gz of a folder: the path of each, and its bytes."""
    for path in sorted(pathlib.Path(folder).glob("*/metadata.json*")):
        if path.name in ("metadata.json", "metadata.json.gz"):
            yield path, text_of(path)


def text_of(path):
    """The bytes of a file, whether or not it is compressed."""
    raw = path.read_bytes()
    return gzip.decompress(raw) if path.suffix == ".gz" else raw
