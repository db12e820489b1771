"""Makes a document of `cargo metadata` with this many packages, for measuring.

Each package has six dependencies, half of them optional, on the packages that follow it, and four features with
references of each form. The first package is the only member and needs all others, some of them by features alone.

With the word `plain` each package has five dependencies, none of them optional, and no feature: so the graph has as many nodes as
there are packages, and five times as many edges, except for those that would lead past the last.
"""
import json
from dataclasses import dataclass


def name(number):
    """The name of a package."""
    return f"p{number:05}"


def package_id(number):
    """The id of a package."""
    return f"path+file:///w/{name(number)}#0.1.0"


@dataclass(frozen=True)
class Shape:
    """What a document is made by: how many packages it has, and whether they are plain."""

    count: int
    is_plain: bool

    def dependencies(self, number):
        """The packages that a package needs."""
        behind = number + 1 + (5 if self.is_plain else 6)
        return list(range(number + 1, min(behind, self.count)))

    def declared(self, number, place):
        """How the dependency on a package is declared, at this place among those of its parent."""
        return {
            "name": name(number), "req": "*", "kind": None, "optional": not self.is_plain and place % 2 == 1,
            "uses_default_features": place == 0, "features": ["core"] if place == 2 and not self.is_plain else [],
        }

    def features(self, number):
        """The features of a package, each with its references."""
        if self.is_plain:
            return {}
        needs = [name(n) for n in self.dependencies(number)]
        listed = {"default": ["core"], "core": ["more"], "more": [], "weak": []}
        if len(needs) > 1:
            listed["more"] = [f"dep:{needs[1]}", f"{needs[1]}/core"]
            listed["weak"] = [f"{needs[1]}?/weak"]
        if len(needs) > 3:
            listed["core"].append(f"{needs[3]}/weak")
        return listed

    def package(self, number):
        """A package, as the document has it."""
        return {
            "name": name(number), "version": "0.1.0", "id": package_id(number), "targets": [],
            "manifest_path": f"/w/{name(number)}/Cargo.toml", "features": self.features(number),
            "dependencies": [self.declared(n, place) for place, n in enumerate(self.dependencies(number))],
        }

    def node(self, number):
        """What is resolved of a package."""
        return {
            "id": package_id(number), "features": sorted(self.features(number)),
            "dependencies": [package_id(n) for n in self.dependencies(number)],
            "deps": [
                {"name": name(n), "pkg": package_id(n), "dep_kinds": [{"kind": None, "target": None}]}
                for n in self.dependencies(number)
            ],
        }

    def document(self):
        """The document."""
        return {
            "packages": [self.package(number) for number in range(self.count)],
            "workspace_members": [package_id(0)], "workspace_root": "/w", "target_directory": "/w/target",
            "resolve": {"nodes": [self.node(number) for number in range(self.count)], "root": None},
        }


def show(count, is_plain):
    """Prints a document with this many packages."""
    print(json.dumps(Shape(count, is_plain).document()))
