"""What `units_of` derives about a build, beside the unit graph that cargo prints for it.

Compared are the units, each with its features, and from which package an edge leads to which other, for which platform at both
ends, and with which features at its far end. Edges between two runs of build scripts, which `links` makes, are compared apart from the
others, with the features at both ends.
"""
import collections
import json

from compare.programs import run

SHOWN = 10


class Build:
    """What is asked of cargo, and what the program derives about it."""

    def __init__(self, asked, words, document):
        """Runs the program; `asked` is the resolver, the folder with what rustc says of machines, and the host."""
        self.resolver, self.words, self.document = str(asked[0]), words, document
        self.status, out, self.said = run("built_units", [*(str(word) for word in asked), *words], document)
        self.facts = collections.defaultdict(list)
        for line in out.splitlines():
            word, *rest = line.split("\t")
            self.facts[word].append(rest)

    def platform(self, text):
        """A platform, as cargo tells it: without `--target` everything is for the host."""
        return text if "--target" in self.words else "host"

    def features(self):
        """The features of each package, by side."""
        found = collections.defaultdict(list)
        for krate, side, feature in self.facts["feature"]:
            found[krate, side].append(feature)
        return found

    def scripts(self):
        """The kinds and the name of the build script of each package that has one."""
        scripts = {}
        for package in json.loads(self.document)["packages"]:
            for target in package["targets"]:
                if "custom-build" in target["kind"]:
                    scripts.setdefault(package["id"], ("+".join(target["kind"]), target["name"]))
        return scripts

    def side_features(self):
        """The function that answers the features of a package on a side."""
        features = self.features()
        return lambda krate, side: tuple(sorted(features[krate, "targets" if self.resolver == "1" else side]))

    def units(self):
        """The units that are derived: package, kinds, name, mode, platform and features."""
        on, scripts = self.side_features(), self.scripts()
        units = {(krate, kinds, name, mode, self.platform(platform), on(krate, side))
                 for krate, kinds, name, mode, platform, side in self.facts["unit"]}
        units |= {(krate, *scripts[krate], "run-custom-build", self.platform(platform), on(krate, side))
                  for krate, platform, side in self.facts["run"]}
        return units | {(krate, *scripts[krate], "build", "host", on(krate, side))
                        for krate, side, _ in self.facts["script"]}

    def edges(self):
        """The edges that are derived: the word of their lines, and package, platform and features at both ends, as far as they are compared."""
        on = self.side_features()
        edges = {("needed", one, self.platform(here), other, self.platform(there), on(other, side))
                 for one, here, other, there, side in self.facts["needed"] if one != other}
        return edges | {("run_needed", one, self.platform(here), on(one, near), other, self.platform(there), on(other, far))
                        for one, here, near, other, there, far in self.facts["run_needed"] if one != other}

    def differences(self, graph):
        """What only one of the program and a unit graph has, or that the program derives nothing."""
        if self.status:
            return [f"status {self.status}: {self.said.strip()}"]
        if self.facts["refused"]:
            return [f"refused here: {self.facts['refused'][0]}"]
        units, edges = printed(graph)
        return differing("unit", units, self.units()) + differing("edge", edges, self.edges())


def printed(graph):
    """The units and the edges of a unit graph."""
    units, edges = json.loads(graph)["units"], set()
    for unit in units:
        for dep in unit["dependencies"]:
            other = units[dep["index"]]
            if unit["pkg_id"] != other["pkg_id"]:
                edges.add(edge(unit, other))
    return {shown(unit) for unit in units}, edges


def edge(unit, other):
    """An edge that cargo printed, as derived ones are."""
    ends = [(it["pkg_id"], it["platform"] or "host", tuple(sorted(it["features"]))) for it in (unit, other)]
    if unit["mode"] == other["mode"] == "run-custom-build":
        return "run_needed", *ends[0], *ends[1]
    return "needed", *ends[0][:2], *ends[1]


def shown(unit):
    """A unit that cargo printed, as derived ones are."""
    target = unit["target"]
    kinds = "+".join(target["kind"])
    return unit["pkg_id"], kinds, target["name"], unit["mode"], unit["platform"] or "host", tuple(sorted(unit["features"]))


def differing(what, of_cargo, derived):
    """What only cargo has, and what only the program has."""
    return ([f"only cargo has the {what} {it}" for it in sorted(of_cargo - derived)]
            + [f"only the program has the {what} {it}" for it in sorted(derived - of_cargo)])
