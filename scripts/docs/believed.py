"""Lists the definitions that the contract of `build_with_metadata` reaches: all that a reader has to trust in the
headline; and how clauses see the values of its signature, which the definitions rest on.

Writes them to docs/HEADLINE.md, or says whether the page is what it would write. The definitions of the standard
library and of the ported crates are left out: they are not this repository's.
"""
import re

from docs import views
from krates_sources import ROOT

PAGE = ROOT / "docs" / "HEADLINE.md"
SOURCE = "crates/krates/src/builder.rt"
CRATE = "krates"
OWNER = "Builder"
FUNCTION = "build_with_metadata"

HEAD = """# The headline, and all that has to be believed of it

> For every metadata document and builder setting, the index's answer included, a build that succeeds keeps exactly the
> crates, enabled features and dependency edges with a finite derivation from the roots by the seven rules, draws exactly
> their graph, and reports every other package once in id order; it is refused exactly for four written causes, and
> every query answers as its definition over that graph.

Written by `scripts/docs.py believed` from the contract of `Builder::build_with_metadata`
([builder.rt](../{source})), and compared with it by each run of the gate. The proofs need not be read: they are
checked. To know what is proved, read the contract, the {count} definitions that it reaches, {lines} lines in
{files} files, and how clauses see the values that it speaks of, {seen} lines in {seen_files} files. What a query answers
is in its own contract ([CONTRACTS](CONTRACTS.md)).

- {meaning} lines say what a document, its ids, its references and a setting mean, and what is kept, reported and
  refused.
- {drawn} lines are about the drawn graph, of which the headline also speaks: which nodes, mappings and edges there are,
  by number, how much work it was, by which steps all of it is kept, and what direct dependencies and dependents have
  to do with one another.
- {fields} lines say nothing new: they list the fields of a document, of an index's answer, of a setting and of a
  document's ids, as clauses see them. Every other definition names such fields, so they are here too.

Files are in the order in which they are first needed. Within a file, a definition comes after those that it uses, each
with the sentence that is above it there.{bare}

```
{contract}
```
"""

LAWS = """## Five laws

The headline is about one build. What is true of two builds, or of two queries, follows from it by five laws. To each of
them, only its own statement has to be believed in addition, which fits on a screen.

- **Order**: of two documents that differ only in the order of packages, members, nodes, a node's dependencies or
  features, the same is kept, drawn number by number, reported in order and refused. So `a` and `b`, where `a` needs
  `b`, are nodes 0 and 1 whichever is written first. [BuildLaws](../crates/krates/specs/BuildLaws.antt),
  `IsBuildOrderFree`.
- **Narrowing**: with one more exclusion, one more ignored kind, or targets where there were none, crates, features and
  edges are a part of what they were, and a build that succeeded still succeeds, or no root is left. So without dev
  dependencies `a`, which needs `b` for its tests, is kept alone. [BuildLaws](../crates/krates/specs/BuildLaws.antt),
  `IsBuildNarrowing`.
- **Naming**: if a dependency's name in a feature reference means only the least of those that match it, what is kept is
  a part of what is kept if it means all of them, and so is what is lost. So of two versions of `d` that the reference
  `dep:d` may mean, the first by id is kept, and with all named both.
  [BuildLaws](../crates/krates/specs/BuildLaws.antt), `IsBuildNamedPart`.
- **Rebuild**: what kept members reach without edges of a kind includes all that a build keeps which ignores the kind,
  if the graph has no root, or a member as its root; and it has nothing else if no feature is enabled and each member is
  a root. So both have `a` alone there; but if a feature of `a` names one of `b`, the first also has `b`.
  [Rebuilding](../crates/krates_drawing/specs/Rebuilding.antt), `FilteredHoldsRebuild`; for callers,
  [Rebuilt](../crates/krates_build_tests/specs/Rebuilt.antt), `HoldsRebuilt`.
- **Agreement**: if no two crates come from one declared dependency of `p`, `p` depends directly on exactly those that
  have `p` as a dependent. So `a` depends on `b` exactly if `b` has `a` as a dependent; but if one dependency brings two
  versions of `d`, `a` is a dependent of both and depends on the one that comes last by id. Each build promises it
  (`agree` of `IsBuilt` below); the law is about every graph that is drawn of a document that can be resolved.
  [BuildLaws](../crates/krates/specs/BuildLaws.antt), `IsBuildAgreeing`.
"""

SEEN = """## How clauses see values

A clause that names a document, a setting, an id or a graph speaks of what its type's `impl Model` shows; what a filter
does with a package, and what is made of a package or of an edge, is stated by the impl of the trait. A caller's own
filter or type states its own.
"""

IMPORT = re.compile(r"^\s*(?:ghost )?use Rattle\.(\w+)\.specs\.([\w.]+?)(?:\.\{(.*?)\})?(?: as (\w+))?;?$", re.M | re.S)
DEFINITION = re.compile(r"^(?:abbrev |unfoldable )?pub (?:(data|record) )?([\w']+)")
# a word, or by the name of a file or a type one of its own: `facts.Lost`
WORD = re.compile(r"[\w']+(?:\.[\w']+)?")


class Definition:
    """A definition of a file: its name, the sentence above it, its lines, the words in it."""

    def __init__(self, file, name, remark, text):
        """Finds the words; what comes after `--` is a remark."""
        self.file, self.name, self.remark, self.text = file, name, remark, text
        self.words = set(WORD.findall("\n".join(line.split("--")[0] for line in text.split("\n"))))


class File:
    """A file of definitions: its imports by the word that they bring, and its definitions by name."""

    def __init__(self, path):
        """Reads the file: its title is the remark at its top."""
        self.path = path
        text = path.read_text(encoding="utf-8")
        self.title = " ".join(re.match(r"(?:-- ?[^\n]*\n)*", text)[0].replace("-- ", "").replace("--", "").split())
        self.imports = imports_of(text)
        self.definitions = {}
        for paragraph in re.split(r"\n{2,}", without_blocks(text)):
            for name, definition in definitions_of(self, paragraph):
                self.definitions[name] = definition


def without_blocks(text):
    """The text with the definitions of its `mutual` blocks as if they were on their own."""
    lines, inside = [], False
    for line in text.split("\n"):
        if line in ("mutual", "abbrev mutual"):
            inside = True
            continue
        inside = inside and (not line or line.startswith("  "))
        lines.append(line[2:] if inside else line)
    return "\n".join(lines)


def imports_of(text):
    """Which definition of which file each imported word names; `None` means whichever one is named after it."""
    found = {}
    for crate, path, names, alias in IMPORT.findall(text):
        file = ROOT / "crates" / crate / "specs" / (path.split(".")[0] + ".antt")
        if not file.exists():
            continue
        if alias and not names:
            found[alias] = (file, None)
        for name in names.replace("\n", " ").split(","):
            word = name.strip().split(" as ")
            if word[0]:
                found[word[-1]] = (file, word[0])
    return found


def definitions_of(file, paragraph):
    """The definitions of a paragraph; the constructors of a `data` lead to it too."""
    lines = [line for line in paragraph.split("\n") if line.strip()]
    remark = " ".join(line.lstrip("- ") for line in lines if line.startswith("-- ") and not line.startswith("-- ----"))
    body = "\n".join(line for line in lines if not line.startswith("--"))
    for line in lines:
        head = DEFINITION.match(line)
        if not head:
            continue
        definition = Definition(file, head[2], remark, body)
        yield head[2], definition
        if head[1] == "data":
            for constructor in re.findall(r"^  ([\w']+) :", body, re.M):
                yield constructor, definition
        return


def read(path, files={}):
    """The file of a path, which is read once."""
    if path not in files:
        files[path] = File(path)
    return files[path]


def contract():
    """The clauses of the function, as they are in the source, and the words in them."""
    text = (ROOT / SOURCE).read_text(encoding="utf-8")
    after = text[text.index("fn " + FUNCTION) :]
    clauses = []
    for line in after[: after.index("\n    {\n")].split("\n"):
        if re.match(r"\s*(requires|ensures)\b", line):
            clauses.append(line.strip())
        elif clauses:
            clauses[-1] += "\n  " + line.strip()
    return clauses, imports_of(text)


def used(words, imports, own):
    """The definitions that these words name, by the imports and the definitions of the file that they are in."""
    for word in sorted(words):
        first, _, second = word.partition(".")
        path, name = imports.get(first, (None, None))
        name = name or second
        if first in own:
            yield own[first]
        elif path and name in read(path).definitions:
            yield read(path).definitions[name]


def seen_values():
    """How clauses see the values of the function's signature."""
    text = (ROOT / SOURCE).read_text(encoding="utf-8")
    after = text[text.index("fn " + FUNCTION) :]
    signature = re.split(r"\n\s*(?:requires|ensures)\b", after)[0]
    named = [OWNER, *views.NAME.findall(signature)]
    return views.of_types(CRATE, named) + views.of_traits(CRATE, named)


def reached():
    """All definitions that the contract and the views of its values reach, each after those that it uses."""
    clauses, imports = contract()
    order, seen = [], set()

    def visit(definition):
        """Adds a definition after those that it uses, once."""
        key = (definition.file.path, definition.name)
        if key in seen:
            return
        seen.add(key)
        for other in used(definition.words - {definition.name}, definition.file.imports, definition.file.definitions):
            visit(other)
        order.append(definition)

    for definition in used(set(WORD.findall(" ".join(clauses))), imports, {}):
        visit(definition)
    for view in seen_values():
        for definition in used(view.words, imports_of(view.path.read_text(encoding="utf-8")), {}):
            visit(definition)
    return clauses, order


def lines_of(definitions):
    """How many lines the definitions have."""
    return sum(len(definition.text.split("\n")) for definition in definitions)


def lists_fields(definition):
    """Whether the definition only lists the fields of a value, as clauses see them."""
    return definition.name.endswith(("_view", "Model"))


def is_drawn(definition):
    """Whether the definition is about the drawn graph alone, or of the selection that is drawn."""
    place = definition.file.path.relative_to(ROOT)
    crates = ("krates_drawing", "krates_graph", "krates_questions", "krates_selection")
    return place.parts[1] in crates or (place.parts[1], place.stem) in (("krates", "Node"), ("krates", "Drawn"))


def page():
    """The text of the page."""
    clauses, order = reached()
    files = []
    for definition in order:
        if definition.file not in files:
            files.append(definition.file)
    lines = lines_of(order)
    fields = lines_of(definition for definition in order if lists_fields(definition))
    drawn = lines_of(definition for definition in order if is_drawn(definition) and not lists_fields(definition))
    meaning = lines - drawn - fields
    values = seen_values()
    bare = [f"`{definition.name}`" for definition in order if not definition.remark]
    told = f" {len(bare)} have none, and are to be read as they stand: {', '.join(bare)}." if bare else ""
    head = {"bare": told, "source": SOURCE, "count": len(order), "lines": lines, "files": len(files)}
    head |= {"meaning": meaning, "drawn": drawn, "fields": fields}
    head |= {"seen": sum(len(it.text().split("\n")) for it in values), "seen_files": len({it.path for it in values})}
    out = [HEAD.format(contract="\n".join(clauses), **head), LAWS]
    for file in files:
        place = file.path.relative_to(ROOT)
        out.append(f"## {file.title.split('. ')[0].rstrip('.')}\n\n[{place.parts[1]}, {place.stem}](../{place})\n")
        for definition in [d for d in order if d.file is file]:
            out.append(f"- `{definition.name}`" + (f": {definition.remark}" if definition.remark else ""))
        out.append("")
    return "\n".join([*out, *seen_page(values)])


def seen_page(values):
    """The part of the page that shows how clauses see values, file by file."""
    out = [SEEN]
    for path in dict.fromkeys(it.path for it in values):
        place = path.relative_to(ROOT)
        blocks = "\n".join(it.text() for it in values if it.path == path)
        out.append(f"[{place.parts[1]}, {'/'.join(place.parts[3:])}](../{place})\n\n```\n{blocks}\n```\n")
    return out


def check():
    """Whether the page is what would be written; says so where it isn't."""
    is_so = PAGE.exists() and PAGE.read_text(encoding="utf-8") == page()
    if not is_so:
        print("docs/HEADLINE.md is not what scripts/docs.py believed writes")
    return is_so


def write():
    """Writes the page."""
    PAGE.write_text(page(), encoding="utf-8")
