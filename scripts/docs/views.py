"""How clauses see the values of a signature: what a type's `impl Model` shows, and the relations that a trait's impls state.

They are in src/, beside the types and the traits, and the definitions of specs/ speak of values as they are seen so.
"""
import re

from krates_sources import ROOT, below, crates

TYPE = re.compile(r"^pub (?:struct|enum) (\w+)", re.M)
MODEL = re.compile(r"^impl(?:<[^>]*>)? Model for (\w+)", re.M)
TRAIT = re.compile(r"^pub trait (\w+)", re.M)
NAME = re.compile(r"\b[A-Z]\w+")
FIELD = re.compile(r"^    (?:pub(?:\([a-z]+\))? )?(\w+): (.+),$", re.M)
# what is seen of a value: what a view says of it, or what a trait's impl says of its functions
GHOST = re.compile(r"^    (ghost (?!use |coded|invariant)\w+\s*[=:][^\n]*(?:\n {6,}[^\n]*)*(?:\n    \} \};|\n    \};)?)", re.M)


class View:
    """What one block of a file says of values: the block's head, its ghost members, and the words in these."""

    def __init__(self, path, head, members):
        """The words are looked up by the imports of the file."""
        self.path, self.head, self.members = path, head, members
        self.words = set(re.findall(r"[\w']+(?:\.[\w']+)?", "\n".join(members)))

    def text(self):
        """The lines that the page shows."""
        lines = [line for member in self.members for line in member.split("\n")]
        return "\n".join([self.head, *(f"  {line.removeprefix('    ')}" for line in lines)])


def block(text, at):
    """The block that begins at a place of the text, up to its closing brace at the margin."""
    end = text.find("\n}", at)
    return text[at : end if end >= 0 else len(text)]


def sources(name):
    """The source files of a crate and of the crates below it, with their texts."""
    known = crates()
    for one in [*below(known, name), name]:
        for path in sorted((ROOT / "crates" / one / "src").rglob("*.rt")):
            yield path, path.read_text(encoding="utf-8")


def viewed(path, text, found):
    """What a block says of values, or nothing where it says nothing."""
    whole = block(text, found.start())
    members = [it.strip() for it in GHOST.findall(whole)]
    return View(path, whole.split("\n")[0].rstrip(" {"), members) if members else None


def fields_of(whole, seen):
    """The types that the fields of a type name: of all its fields, or of those that its view names."""
    if seen is None:
        return set(NAME.findall(whole))
    shown = {word.rpartition(".")[2] for word in seen.words}
    return {name for field, kind in FIELD.findall(whole) if field in shown for name in NAME.findall(kind)}


def of_types(name, first):
    """What is seen of the types that these name, by their fields, of a crate and those below it, each once."""
    types, models = {}, {}
    for path, text in sources(name):
        for found in TYPE.finditer(text):
            types.setdefault(found[1], []).append(block(text, found.start()))
        for found in MODEL.finditer(text):
            models[found[1]] = viewed(path, text, found)
    order, left = [], list(first)
    while left:
        one = left.pop(0)
        if one in order or one not in types:
            continue
        order.append(one)
        left += sorted({it for whole in types[one] for it in fields_of(whole, models.get(one))})
    return [models[one] for one in order if models.get(one)]


def of_traits(name, bounds):
    """What the traits that bound a signature say of their functions, and what each impl of this repository says."""
    found = []
    for path, text in sources(name):
        for trait in TRAIT.finditer(text):
            if trait[1] in bounds:
                found.append(viewed(path, text, trait))
        for bound in bounds:
            for impl in re.finditer(rf"^impl(?:<[^>]*>)? {bound} for ", text, re.M):
                found.append(viewed(path, text, impl))
    return [it for it in found if it]
