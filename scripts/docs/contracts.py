"""Writes docs/CONTRACTS.md, which has every public call with its contract, or says whether the page is what it would
write.

Crate by crate in the order of crates.txt, and file by file, the page quotes from the sources: of each public call of a
library, as `krates_sources.public_calls` has them, the first sentence of its comment, its signature and its clauses; of
each public trait what its implementations promise; and of each implementation of a trait by a public type the clauses
that are its own. What is left out are bodies, the rest of the comments, private functions, and proofs.

The beginning of the page is contracts_head.md, beside this module. All is well where the page is as written; that
every public call is on it is then so by construction.
"""
import pathlib
import re
import textwrap

from krates_sources import ROOT, crates, files, given_again, is_nowhere_private, is_reached, libraries, public_calls

PAGE = ROOT / "docs" / "CONTRACTS.md"
HEAD = pathlib.Path(__file__).with_name("contracts_head.md")

# How wide the page is.
WIDTH = 118

CLAUSE = re.compile(r"\s*(requires|ensures)\b")
DECLARED = re.compile(r"^pub (?:struct|enum|trait) (\w+)|^(?:struct|enum|trait) (\w+)", re.M)
IMPLEMENTED = re.compile(r"^impl(?:<.*?>)? (?:[\w]+::)*(\w+)(?:<.*>)? for (?:&(?:'\w+ )?)?(?:\w+::)*(\w+)")
SENTENCE = re.compile(r"(.*?[.?!])(?: (?=[A-Z`\"(])|$)")

# What an implementation says in words of proofs alone, and how its type is seen, which isn't a promise.
PROOFS = re.compile(r"\s*ghost (use|laws|total|respects_eq|matches_eq|matches_partial_cmp)\b")


def first_sentence(paragraphs):
    """The first sentence of a comment, whose lines these are."""
    text = " ".join(paragraphs).strip()
    found = SENTENCE.match(text)
    return found[1] if found else text


def title(lines):
    """The first sentence of a file."""
    taken = []
    for line in lines:
        if not line.startswith("//!") or line == "//!":
            break
        taken.append(line[3:].strip())
    return first_sentence(taken)


def comment(lines, at):
    """The first sentence of the comment above a line, as lines of comment indented as the line is."""
    start = at
    while lines[start - 1].lstrip().startswith(("///", "#[", "// ")):
        start -= 1
    taken = [line.strip()[3:].strip() for line in lines[start:at] if line.lstrip().startswith("///")]
    whole = taken[: taken.index("")] if "" in taken else taken
    lead = lines[at][: len(lines[at]) - len(lines[at].lstrip())] + "/// "
    return textwrap.wrap(first_sentence(whole), WIDTH, initial_indent=lead, subsequent_indent=lead)


def depth(lines):
    """How many more braces these lines open than close."""
    return sum(line.count("{") - line.count("}") for line in lines)


def signature(lines, at):
    """The lines of a function from its name to its last clause, without its body."""
    indent = lines[at][: len(lines[at]) - len(lines[at].lstrip())]
    taken = []
    for line in lines[at:]:
        has_clauses = any(CLAUSE.match(one) for one in taken + [line])
        if line in (indent + "{", indent + "{}"):
            return taken
        if not has_clauses and line.endswith(("{", "{}")):
            return taken + [line.rstrip("{} ")]
        taken.append(line)
        if line.endswith(";") and depth(taken) == 0:
            return taken
    raise ValueError(f"a function without an end: {lines[at]}")


def statement(lines, at):
    """The lines of a statement, up to its semicolon."""
    end = at + 1
    while not lines[end - 1].endswith(";") or depth(lines[at:end]):
        end += 1
    return lines[at:end]


def header(lines, at):
    """The lines with which a block begins, up to the brace that opens it."""
    end = at + 1
    while not lines[end - 1].endswith(("{", "{}")):
        end += 1
    return lines[at:end]


def end_of(lines, at):
    """The line with which the block ends that begins here at the left edge."""
    while lines[at] != "}" and not lines[at].endswith("{}"):
        at += 1
    return at


def parted(pieces):
    """The lines of the pieces that have some, with a blank line between two."""
    joined = []
    for piece in pieces:
        joined += [""] * bool(joined and piece) + piece
    return joined


def methods(lines, at, calls):
    """The public calls of a block of a type's own functions."""
    inside = [number for number in range(at, end_of(lines, at)) if number in calls]
    pieces = [comment(lines, number) + signature(lines, number) for number in inside]
    return [header(lines, at) + parted(pieces) + ["}"]] if pieces else []


def promised(lines, at):
    """What a block of a trait, or of an implementation, says: its statements, and its functions with their clauses."""
    is_trait = lines[at].startswith("pub trait")
    for number in range(at, end_of(lines, at)):
        line = lines[number]
        if re.match(r"    ghost \w+", line) and not PROOFS.match(line):
            text = statement(lines, number)
            if is_trait or "Prim." not in "".join(text):
                yield comment(lines, number) + text
        elif re.match(r"    (?:unsafe )?fn ", line):
            text = signature(lines, number)
            if is_trait or any(CLAUSE.match(one) for one in text):
                yield comment(lines, number) + text


def block(lines, at):
    """What a trait or an implementation promises, whole; nothing where that is nothing."""
    pieces = list(promised(lines, at))
    if not pieces and not lines[at].startswith("pub trait"):
        return []
    return [comment(lines, at) + header(lines, at) + parted(pieces) + ["}"]]


def is_promised(line, public, private):
    """Whether what begins here is a public trait, or the implementation of one by a public type."""
    if found := re.match(r"pub trait (\w+)", line):
        return found[1] in public
    found = IMPLEMENTED.match(line)
    return bool(found) and found[1] != "Model" and not private & {found[1], found[2]}


def quoted(lines, calls, public, private):
    """What a file promises, piece by piece in the order of its lines."""
    for at, line in enumerate(lines):
        if line.startswith(("impl ", "impl<", "pub trait ")):
            if is_promised(line, public, private):
                yield from block(lines, at)
            elif line.startswith("impl") and not IMPLEMENTED.match(line):
                yield from methods(lines, at, calls)
        elif at in calls and not line.startswith(" "):
            yield comment(lines, at) + signature(lines, at)


def names(source):
    """The types and traits of a crate that others may name, and those that they may not."""
    public, private, again = set(), set(), given_again(source)
    for path in files(source):
        is_open = is_reached(source, path) or is_nowhere_private(source, path)
        for shown, hidden in DECLARED.findall(path.read_text(encoding="utf-8")):
            (public if shown and (is_open or shown in again) else private).add(shown or hidden)
    return public, private - public


def section(source):
    """The part of the page about a crate, and how many public calls it has."""
    calls = list(public_calls(source))
    public, private = names(source)
    root = title((source / "lib.rt").read_text(encoding="utf-8").splitlines())
    out = [f"## {source.parent.name}", "", *textwrap.wrap(root, WIDTH), ""]
    for path in files(source):
        lines = path.read_text(encoding="utf-8").splitlines()
        pieces = list(quoted(lines, {call.line - 1 for call in calls if call.path == path}, public, private))
        if pieces:
            out += [f"### [{path.relative_to(source)}](../{path.relative_to(ROOT)})", ""]
            out += [*textwrap.wrap(title(lines), WIDTH), ""] if path.name != "lib.rt" else []
            out += ["```text", *parted(pieces), "```", ""]
    lost = [call.name for call in calls if not any(f"fn {call.name}" in line for line in out)]
    if lost:
        raise ValueError(f"{source}: the page would lack {', '.join(lost)}")
    return out, len(calls)


def page():
    """The text of the page."""
    known = list(crates())
    sources = sorted(libraries(), key=lambda source: known.index(source.parent.name))
    sections = [(source.parent.name, *section(source)) for source in sources]
    contents = ", ".join(f"[{name}](#{name}) {count}" for name, _, count in sections)
    text = HEAD.read_text(encoding="utf-8").format(total=sum(count for _, _, count in sections), contents=contents)
    *head, last = text.splitlines()
    out = head + textwrap.wrap(last, WIDTH) + [""] + [line for _, lines, _ in sections for line in lines]
    return "\n".join(out)


def check():
    """Whether the page is what would be written; says so where it isn't."""
    is_so = PAGE.exists() and PAGE.read_text(encoding="utf-8") == page()
    if not is_so:
        print("docs/CONTRACTS.md is not what scripts/docs.py contracts writes")
    return is_so


def write():
    """Writes the page."""
    PAGE.write_text(page(), encoding="utf-8")
