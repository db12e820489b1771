"""Checks what krates-list says of why a crate is kept, by its own reading of the rules.

For each package that the program keeps of a document the steps of `--why ID` are read back, and each is looked at
beside the document: it is numbered in turn and uses earlier steps, their facts have the form that its rule requires,
and what the rule requires of the document is true: that a crate is a root, a feature is listed, a reference is in the
manifest and its name means the crate, a dependency is declared, optional or not. No fact occurs twice, each step but
the last is used by a later one, and the last says that the package is kept. For each package that isn't kept the
program has to refuse, and to write nothing.

Only the run without another option is looked at. Of the declared dependencies that fit an edge by kind, target, name
and version one has to make the step right; which of several is meant isn't asked. Whether a target text passes isn't
either.
"""
import collections
import concurrent.futures
import json
import os
import re
import urllib.parse

from compare.programs import run
from krates_sources import documents

LINE = re.compile(r"(\d+) rule (\d+): (.*?)(?: from (\d+(?:, \d+)*))?")
KEPT = re.compile(r"(.*?) -> (.*?)(?: \((build|dev)\))?(?: '(.*)')?")

Crate = collections.namedtuple("Crate", "krate")
Feature = collections.namedtuple("Feature", "krate name")
Kept = collections.namedtuple("Kept", "parent child kind cfg")
Toggled = collections.namedtuple("Toggled", "parent child name")


def has_query(left):
    """Whether the source before the `#` of an id is one of git with a query."""
    return left.startswith("git+") and "?" in left.rsplit("/", 1)[-1]


def decoded(left):
    """The source, its query decoded where it is one of git."""
    if not has_query(left):
        return left
    before, query = left.rsplit("?", 1)
    return f"{before}?{urllib.parse.unquote(query)}"


def parts_of(text):
    """The name, the version and the source of a package id."""
    if " " in text:
        name, version, source = text.split(" ", 2)
        end = source.rindex("#") if "#" in source else len(source) - 1
        return name, version, source[1:end]
    left, fragment = text.rsplit("#", 1)
    piece = (left.rsplit("?", 1)[0] if has_query(left) else left).rsplit("/", 1)[-1]
    name, at, version = fragment.partition("@")
    return (name, version, decoded(left)) if at else (piece, fragment, decoded(left))


def printed(text):
    """A package id as a step has it."""
    left, sign, fragment = text.rpartition("#")
    return text if " " in text else decoded(left) + sign + fragment


def is_same_name(resolved, declared):
    """Whether the names are the same, where an underline of the first may be a hyphen of the second."""
    return len(resolved) == len(declared) and all(a == b or (a, b) == ("_", "-") for a, b in zip(resolved, declared))


def numbers(version):
    """What a version is compared by; what has a mark comes before what has none."""
    version = version.split("+")[0]
    core, mark, before = version.partition("-")
    marks = [(0, int(part), "") if part.isdigit() else (1, 0, part) for part in before.split(".")] if mark else []
    return [int(part) for part in core.split(".")], not mark, marks


def fits(requirement, version):
    """Whether a version fits; one with a mark fits wherever its numbers do: such are seldom, and none hangs on them."""
    found = numbers(version)[0]
    return all(fits_one(part.strip(), version, found) for part in requirement.split(",") if part.strip() != "*")


def fits_one(comparator, version, found):
    """Whether a version, whose three numbers are found, fits one part of a requirement."""
    sign, text = re.fullmatch(r"(=|>=|<=|>|<|~|\^|) ?(.*)", comparator).groups()
    wanted = [int(part) for part in re.split(r"[-+]", text)[0].split(".") if part not in "*xX"]
    front = found[: len(wanted)]
    if sign in (">", "<", ">=", "<=") and len(wanted) == 3:
        order = (numbers(version) > numbers(text)) - (numbers(version) < numbers(text))
        return {">": order > 0, "<": order < 0, ">=": order >= 0, "<=": order <= 0}[sign]
    if sign in (">", "<"):
        return front > wanted if sign == ">" else front < wanted
    if sign in (">=", "<="):
        return front >= wanted if sign == ">=" else front <= wanted
    if sign == "=" or "*" in text:
        return front == wanted
    if sign == "~":
        return front >= wanted and found[:2] == wanted[:2] if len(wanted) > 1 else front == wanted
    fixed = next((place for place, number in enumerate(wanted) if number), len(wanted) - 1)
    return front >= wanted and found[: fixed + 1] == wanted[: fixed + 1]


class Document:
    """What a document says, by the parts of ids."""

    def __init__(self, text):
        """Reads the document."""
        metadata = json.loads(text)
        self.packages = {parts_of(package["id"]): package for package in metadata["packages"]}
        self.printed = {printed(package["id"]): parts_of(package["id"]) for package in metadata["packages"]}
        self.nodes = {parts_of(node["id"]): node for node in metadata["resolve"]["nodes"]}
        root = metadata["resolve"]["root"]
        self.roots = {parts_of(id) for id in ([root] if root else metadata["workspace_members"])}

    def stands(self, krate):
        """Whether a crate has a package and a node."""
        return krate in self.packages and krate in self.nodes

    def lists(self, krate, feature):
        """Whether the node of a crate lists a feature."""
        return self.stands(krate) and feature in self.nodes[krate].get("features", [])

    def references(self, krate, feature):
        """The references of a feature: the dependency's name or none, whether it is weak, and the feature it names."""
        for text in self.packages[krate]["features"].get(feature, []):
            if text.startswith("dep:"):
                yield text[4:], False, None
            elif "?/" in text:
                name, of = text.split("?/", 1)
                yield name, True, of
            elif "/" in text:
                name, of = text.split("/", 1)
                yield name, False, of
            else:
                yield None, False, text

    def referent(self, krate, name):
        """The first dependency, by id, that matches the name."""
        deps = self.nodes[krate]["deps"]
        answering = [dep for dep in deps if is_same_name(dep["name"], name) or self.is_renamed(dep, name)]
        return min((parts_of(dep["pkg"]) for dep in answering), default=None)

    def is_renamed(self, dep, name):
        """Whether the dependency is known by the name of its library, which is another than its package's."""
        child = parts_of(dep["pkg"])
        targets = self.packages[child]["targets"] if child in self.packages else []
        library = next((target["name"] for target in targets if "lib" in target["kind"]), None)
        is_another = library is not None and not is_same_name(library, child[0])
        return child[0] == name and is_another and dep["name"] == library

    def declared(self, edge):
        """The declared dependencies that fit an edge which the graph lists."""
        if not self.stands(edge.parent) or not self.stands(edge.child):
            return
        for dep in self.nodes[edge.parent]["deps"]:
            listed = [(info["kind"] or "normal", info["target"]) for info in dep["dep_kinds"]]
            if parts_of(dep["pkg"]) == edge.child and (edge.kind, edge.cfg) in listed:
                declared = self.packages[edge.parent]["dependencies"]
                yield from (known for known in declared if self.is_declared(known, dep, edge))

    def is_declared(self, known, dep, edge):
        """Whether a declared dependency is the one of an edge that the graph lists with this name."""
        name = known.get("rename") or known["name"]
        return (
            ((known["kind"] or "normal"), known["target"]) == (edge.kind, edge.cfg)
            and (is_same_name(dep["name"], name) or is_same_name(edge.child[0], name))
            and fits(known["req"], edge.child[1])
        )

    def toggles(self, fact, uses, is_weak):
        """Whether a feature of the first crate refers in this way to the feature of the second, over the edge."""
        feature, edge = uses
        return (
            feature.krate == edge.parent == fact.parent
            and edge.child == fact.child
            and self.lists(fact.child, fact.name)
            and any(
                (weak, of) == (is_weak, fact.name) and name and self.referent(feature.krate, name) == fact.child
                for name, weak, of in self.references(feature.krate, feature.name)
            )
        )

    def asks(self, feature, child):
        """Whether a feature requires the crate: by `dep:`, or strongly for a feature of it."""
        return any(
            name is not None and not weak and self.referent(feature.krate, name) == child
            for name, weak, _ in self.references(feature.krate, feature.name)
        )

    def follows(self, rule, fact, uses):
        """Whether a fact follows by a rule from others."""
        form = (rule, type(fact), tuple(type(used) for used in uses))
        first = uses[0] if uses else None
        if form == (1, Crate, ()):
            return fact.krate in self.roots and self.stands(fact.krate)
        if form == (1, Feature, ()):
            return fact.krate in self.roots and self.lists(fact.krate, fact.name)
        if form == (2, Crate, (Feature,)):
            return first.krate == fact.krate
        if form == (3, Feature, (Feature,)):
            named = (None, False, fact.name) in self.references(first.krate, first.name)
            return named and first.krate == fact.krate and self.lists(fact.krate, fact.name)
        if form == (4, Kept, (Feature,)):
            return first.krate == fact.parent and self.asks(first, fact.child) and any(self.declared(fact))
        if form == (5, Kept, (Crate,)):
            return first.krate == fact.parent and any(not known["optional"] for known in self.declared(fact))
        if form == (5, Crate, (Kept,)):
            return first.child == fact.krate
        if form == (6, Feature, (Kept,)):
            return first.child == fact.krate and self.lists(fact.krate, fact.name) and any(
                fact.name in known["features"] or (fact.name == "default" and known["uses_default_features"])
                for known in self.declared(first)
            )
        if form in ((4, Toggled, (Feature, Kept)), (7, Toggled, (Feature, Kept))):
            return self.toggles(fact, uses, rule == 7)
        return form == (7, Feature, (Toggled,)) and (first.child, first.name) == (fact.krate, fact.name)


def fact_of(printed, text):
    """The fact that a line says, by the ids that may be printed."""
    what, rest = text.split(" ", 1)
    if what == "crate":
        return Crate(printed[rest])
    if what == "feature":
        name, krate = rest.split(" of ", 1)
        return Feature(printed[krate], name)
    if what == "kept":
        parent, child, kind, cfg = KEPT.fullmatch(rest).groups()
        return Kept(printed[parent], printed[child], kind or "normal", cfg)
    name, ids = rest.split(" of ", 1)
    child, parent = ids.split(" by ", 1)
    return Toggled(printed[parent], printed[child], name)


def fault_of(document, text, krate):
    """What is wrong with the steps for a crate; nothing where they are right."""
    facts, used = [], set()
    for number, line in enumerate(text.splitlines()):
        found = LINE.fullmatch(line)
        if not found or int(found[1]) != number:
            return f"no step {number}: {line}"
        uses = [int(use) for use in found[4].split(", ")] if found[4] else []
        if any(use >= number for use in uses):
            return f"a later step is used: {line}"
        fact = fact_of(document.printed, found[3])
        if fact in facts or not document.follows(int(found[2]), fact, [facts[use] for use in uses]):
            return f"it doesn't follow, or stands twice: {line}"
        facts.append(fact)
        used.update(uses)
    if not facts or facts[-1] != Crate(krate):
        return "the last step isn't the crate"
    return None if used == set(range(len(facts) - 1)) else "a step isn't used"


def checked(document, text, line):
    """The number of steps that explain a listed package, none for one that isn't kept; and what is wrong."""
    mark, id = line.split(" ", 1)
    status, steps, told = run("krates_list", ["--why", id], text)
    if mark == "+":
        fault = fault_of(document, steps, parts_of(id)) if status == 0 else told
        return steps.count("\n"), fault
    is_refused = status == 1 and not steps and told.startswith("refused: not kept: ")
    return 0, None if is_refused else f"status {status}: {told}{steps}"


def compare(folder):
    """Looks at the steps for each package of each document, and returns whether every step is right and there was one."""
    steps = faults = 0
    for path, text in documents(folder):
        document = Document(text)
        lines = run("krates_list", [], text)[1].splitlines()
        with concurrent.futures.ThreadPoolExecutor(os.cpu_count()) as pool:
            answers = list(pool.map(lambda line: checked(document, text, line), lines))
        for line, (_, fault) in zip(lines, answers):
            if fault:
                print(f"{path.parent.name} {line}: {fault}")
        count = sum(count for count, _ in answers)
        print(f"{path.parent.name}: {len(lines)} packages, {count} steps")
        steps, faults = steps + count, faults + sum(fault is not None for _, fault in answers)
    print(f"{steps} steps, {faults} faults")
    return steps > 0 and faults == 0
