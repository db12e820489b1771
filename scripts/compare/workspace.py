"""Compares what `cargo krates list` answers in a folder of a workspace with what the installed cargo would build there, or builds.

The words behind the folder are those of `cargo build` that the program knows; `--built` among them builds too, into an empty folder. Both are asked in
the folder itself, which may be a member's, without a network: so the program asks cargo and rustc, and reads Cargo.toml, by itself.

Compared with cargo's unit graph are the packages that have something compiled, and the units, each with its package, kind, name, mode and platform.
With `--target` those for the host and those for the targets are compared apart; without it cargo doesn't tell them apart, and `--side host` and
`--side target` have to have all together. With `--built` the packages and the units, without platforms, are compared with what cargo says that it
compiled. What `cargo tree` lists otherwise is printed, and no difference: it has no units.
"""
import collections
import json
import pathlib
import re
import tempfile

from compare.builds import SHOWN, differing
from compare.cargo import UNSTABLE, told
from compare.programs import program
from compare.schema import held

# What the program calls the kinds of cargo that aren't those of a library.
KINDS = {
    "custom-build": "build script",
    "proc-macro": "proc-macro",
    "bin": "program",
    "example": "example",
    "bench": "benchmark",
    "test": "test",
}
# The words that `cargo tree` doesn't know, which ask for kinds of targets, and those of them that ask for what tests need.
KIND_WORDS = {"--lib", "--bins", "--examples", "--tests", "--benches", "--all-targets"}
WITH_DEV = {"--examples", "--tests", "--benches", "--all-targets"}
SHOWN_PACKAGE = re.compile(r"(\S+) v(\S+)")

Unit = collections.namedtuple("Unit", "id kind name mode platform")


def asks_for_targets(words):
    """Whether the words name a machine."""
    return any(word == "--target" or word.startswith("--target=") for word in words)


def kind_of(kinds):
    """What the program calls a target of these kinds."""
    return next((KINDS[kind] for kind in kinds if kind in KINDS), "library")


def graph_units(graph):
    """What is compiled by a unit graph; a run of a build script isn't."""
    return {Unit(it["pkg_id"], kind_of(it["target"]["kind"]), it["target"]["name"], it["mode"], it["platform"] or "host")
            for it in json.loads(graph)["units"] if it["mode"] != "run-custom-build"}


def script_names(document):
    """The name of the build script of each package that has one."""
    return {package["id"]: target["name"] for package in document["packages"] for target in package["targets"] if "custom-build" in target["kind"]}


def answered_units(answer, words, scripts):
    """What is compiled by an answer of the program, with platforms as cargo tells them: without `--target` everything is for the host."""
    units = set()
    for built in held("list", json.loads(answer))["answer"]:
        krate = built["crate"]["id"]
        for it in built["units"]:
            platform = it["platform"] if asks_for_targets(words) else "host"
            units.add(Unit(krate, it["kind"], it["name"], it["mode"], platform))
        if built["build_script"]:
            units.add(Unit(krate, "build script", scripts.get(krate), "build", "host"))
    return units


def artifact_units(messages):
    """What a real build compiled, by its messages, which tell no platforms."""
    found = (json.loads(line) for line in messages.splitlines())
    return {Unit(it["package_id"], kind_of(it["target"]["kind"]), it["target"]["name"], "test" if it["profile"]["test"] else "build", "")
            for it in found if it["reason"] == "compiler-artifact"}


def tree_packages(tree, document):
    """The ids of the packages that `cargo tree` lists, of those in a document."""
    ids = {(package["name"], package["version"]): package["id"] for package in document["packages"]}
    return {ids.get(found.groups(), found[0]) for line in tree.splitlines() if (found := SHOWN_PACKAGE.match(line))}


class Workspace:
    """A folder in which both are asked, and the words of `cargo build`."""

    def __init__(self, folder, words):
        """Nothing is asked yet."""
        self.folder, self.words = folder, words
        self.krates = str(pathlib.Path(program("cargo_krates")).resolve())

    def listed(self, *more):
        """What `cargo krates list` prints; None if it fails."""
        return told(self.folder, self.krates, "krates", "list", "--offline", *self.words, *more, more={})

    def ids(self, *more):
        """The ids that `cargo krates list` prints; None if it fails."""
        lines = self.listed("--ids", *more)
        return None if lines is None else set(lines.decode().splitlines())

    def cargo(self, *words, more=None):
        """What cargo prints, with these variables too; None if it fails."""
        return told(self.folder, "cargo", *words, more=more or {})

    def graph(self):
        """The unit graph; None if cargo prints none."""
        return self.cargo("build", "--unit-graph", "-Z", "unstable-options", "--offline", *self.words, more=UNSTABLE)

    def tree(self):
        """What `cargo tree` lists for the same words; None if it fails."""
        kinds = "normal,build,dev" if WITH_DEV & set(self.words) else "normal,build"
        rest = [word for word in self.words if word not in KIND_WORDS]
        return self.cargo("tree", "--offline", "--prefix", "none", "-e", kinds, *rest)

    def artifacts(self):
        """The messages of a real build into an empty folder; None if it fails."""
        with tempfile.TemporaryDirectory() as empty:
            return self.cargo("build", "--offline", "--message-format", "json", "--target-dir", empty, *self.words)


def side_differences(workspace, units):
    """Where `--side host` and `--side target` have other packages than these units."""
    host, targets = workspace.ids("--side", "host"), workspace.ids("--side", "target")
    if host is None or targets is None:
        return ["no answer for a side"]
    if not asks_for_targets(workspace.words):
        return differing("package on a side", {it.id for it in units}, host | targets)
    of_host = {it.id for it in units if it.platform == "host"}
    of_targets = {it.id for it in units if it.platform != "host"}
    return differing("package for the host", of_host, host) + differing("package for a target", of_targets, targets)


def built_differences(workspace, ids, units):
    """Where a real build compiles something else than these packages and units of the program's."""
    messages = workspace.artifacts()
    if messages is None:
        return ["no build"]
    compiled = artifact_units(messages)
    packages = {it.id for it in compiled}
    print(f"cargo compiled {len(packages)} packages, {len(compiled)} of their targets")
    return differing("compiled package", packages, ids) + differing("compiled target", compiled, {it._replace(platform="") for it in units})


def differences(workspace, units, document, is_built):
    """Where the program's answers are other than these units of cargo, or than what it builds."""
    ids, answer = workspace.ids(), workspace.listed("--units", "--json")
    if ids is None or answer is None:
        return ["no answer"]
    answered = answered_units(answer, workspace.words, script_names(document))
    found = differing("package", {it.id for it in units}, ids) + differing("unit", units, answered) + side_differences(workspace, units)
    return found + (built_differences(workspace, ids, answered) if is_built else [])


def tell_tree(workspace, units, document):
    """Prints what `cargo tree` lists otherwise."""
    tree = workspace.tree()
    if tree is None:
        return
    listed, built = tree_packages(tree.decode(), document), {it.id for it in units}
    lines = [f"only cargo tree has {it}" for it in sorted(listed - built)] + [f"cargo tree lacks {it}" for it in sorted(built - listed)]
    print("\n".join(map(ascii, lines)) or f"cargo tree lists the same {len(listed)} packages")


def compare(folder, *words):
    """Compares the answers in a folder, and returns whether nothing differs and there is something."""
    workspace = Workspace(folder, [word for word in words if word != "--built"])
    graph = workspace.graph()
    document = workspace.cargo("metadata", "--format-version", "1", "--all-features", "--offline")
    if graph is None or document is None:
        return False
    units, document = graph_units(graph), json.loads(document)
    found = differences(workspace, units, document, "--built" in words)
    tell_tree(workspace, units, document)
    agreed = f"{len({it.id for it in units})} packages and {len(units)} units agree"
    print("\n".join([ascii(line) for line in found[:SHOWN]] or [agreed]))
    return not found and len(units) > 0
