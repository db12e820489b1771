"""Checks what the words of cargo-krates answer by krates against a plain reading of the document and of the drawn graph.

Of each document, without an option and for Linux, the graph is read that the program of drawn_graphs/ draws, and from its lines and the document
this module says what the other words have to answer, with --json: the crates, the tree of the members, the tree above
each crate, the names with several crates, the licences, what is shipped (by the lists of builds that ignore kinds),
the bill of materials, the enabled features, the order and the picture, and the difference from the document before. Of each package that isn't
kept `unreachable` has to say yes, of each that is no.

Each answer has to be as docs/schema/answers.json says. Of a document with more than 200 crates only the first twelve are asked about one by one.
"""
import concurrent.futures
import json
import os
import pathlib
import re
import tempfile
import urllib.parse

from compare.graph import Graph
from compare.programs import SETTINGS, made_here, printed
from compare.schema import held
from krates_sources import documents

# What made a bill, and the operators of licences.
TOOL = {"type": "application", "name": "cargo-krates", "version": "0.22.0"}
OPERATORS = {"AND", "OR", "WITH", "/"}


def answer(text, words, statuses=(0,)):
    """What the program prints of a document."""
    return printed("cargo_krates", [*words, "--by", "krates", "--metadata", "-"], text, statuses)


class Reading:
    """A document under a setting, as the drawn graph and the packages show it."""

    def __init__(self, text, options):
        """Reads the document, and the graph that the program draws of it."""
        self.text, self.options = text, options
        self.document = json.loads(text)
        self.packages = {package["id"]: package for package in self.document["packages"]}
        self.graph = Graph(printed("drawn_graphs", ["graph", "--metadata", "-", *options], text).splitlines())
        self.crates = self.graph.crates
        edges = [(source, self.home(target)) for source, target, _ in self.graph.edges if source < len(self.crates)]
        numbers = range(len(self.crates))
        self.needs = {number: sorted({to for of, to in edges if of == number}) for number in numbers}
        self.needed_by = {number: sorted({of for of, to in edges if to == number}) for number in numbers}

    def home(self, node):
        """The crate that a node is, or is a feature of."""
        return node if node < len(self.crates) else self.graph.features[node][0]

    def ask(self, *words, statuses=(0,)):
        """What the program answers to the words, as values."""
        value = json.loads(answer(self.text, [*words, "--json", *self.options], statuses))
        return value if words[0] == "sbom" else held(words[0], value)["answer"]

    def crate(self, number):
        """What identifies a crate in an answer."""
        package = self.packages[self.crates[number]]
        return {key: package[key] for key in ("id", "name", "version", "source")}

    def all_crates(self):
        """All kept crates."""
        return [self.crate(number) for number in range(len(self.crates))]

    def members(self):
        """The numbers of the kept members."""
        return [number for number, krate in enumerate(self.crates) if krate in self.document["workspace_members"]]

    def tree(self, roots, leads):
        """The lines of a tree, depth first, each crate opened at its first line."""
        lines, opened, left = [], set(), [(0, root) for root in reversed(roots)]
        while left:
            depth, number = left.pop()
            is_repeated = number in opened and bool(leads[number])
            lines.append({"depth": depth, "id": self.crates[number], "repeated": is_repeated})
            if number not in opened:
                opened.add(number)
                left += [(depth + 1, other) for other in reversed(leads[number])]
        return lines

    def grouped(self, key):
        """The numbers of the crates by what the key says of their packages, in its order."""
        groups = {}
        for number in range(len(self.crates)):
            groups.setdefault(key(self.packages[self.crates[number]]), []).append(number)
        return sorted(groups.items(), key=lambda item: item[0].encode())

    def duplicates(self):
        """The names that several crates have."""
        return [
            {
                "name": name,
                "crates": [
                    {"crate": self.crate(number), "dependents": [self.crates[one] for one in self.needed_by[number]]}
                    for number in numbers
                ],
            }
            for name, numbers in self.grouped(lambda package: package["name"])
            if len(numbers) > 1
        ]

    def licences(self):
        """The crates by their licence."""
        groups = self.grouped(lambda package: package["license"] or package["license_file"] or "")
        return [{"licence": text or None, "crates": list(map(self.crate, numbers))} for text, numbers in groups]

    def kept_without(self, *kinds):
        """The ids that a build keeps which ignores these kinds."""
        words = [word for kind in kinds for word in ("--ignore-kind", kind)]
        return set(answer(self.text, ["list", "--ids", *words, *self.options]).splitlines())

    def uses(self):
        """What each crate is used for."""
        without_dev, shipped = self.kept_without("dev"), self.kept_without("dev", "build")
        return ["shipped" if krate in shipped else "build" if krate in without_dev else "dev" for krate in self.crates]

    def crates_by_use(self):
        """The crates by what they are used for."""
        found = {"shipped": [], "build": [], "dev": []}
        for number, use in enumerate(self.uses()):
            found[use].append(self.crate(number))
        return found

    def features(self, number):
        """The names of a crate's enabled features."""
        return sorted((name for krate, name in self.graph.features.values() if krate == number), key=str.encode)

    def order(self):
        """The crates in an order, always the first of those of which all needs are there; or nothing where there is none."""
        order, left = [], set(range(len(self.crates)))
        while ready := [number for number in left if left.isdisjoint(self.needs[number])]:
            order.append(min(ready))
            left.remove(order[-1])
        return None if left else [
            {
                **{key: self.crate(number)[key] for key in ("id", "name", "version")},
                "features": [{"name": name} for name in self.features(number)],
                "dependencies": [self.crates[other] for other in self.needs[number]],
            }
            for number in order
        ]

    def is_cycle(self, ids):
        """Whether each of these crates needs the next one, and the last the first."""
        numbers = [self.crates.index(krate) for krate in ids]
        return bool(numbers) and all(to in self.needs[of] for of, to in zip(numbers, numbers[1:] + numbers[:1]))

    def is_picture(self, told):
        """Whether a picture has the crates that the members need, and what they need of each other."""
        reached, left = set(), self.members()
        while left:
            number = left.pop()
            left += self.needs[number] if number not in reached else []
            reached.add(number)
        crates = [self.crates[number] for number in sorted(reached)]
        links = sorted({(self.crates[of], self.crates[to]) for of in reached for to in self.needs[of] if of != to})
        return [one["id"] for one in told["crates"]] == crates and sorted({(one["from"], one["to"]) for one in told["links"]}) == links

    def bill(self):
        """The bill of materials."""
        root, members = self.document["workspace_root"], self.members()
        packages = [self.packages[krate] for krate in self.crates]
        refs = [reference(package, root) for package in packages]
        parts = [component(package, use, root) for package, use in zip(packages, self.uses())]
        needs = [{"ref": refs[number], "dependsOn": [refs[other] for other in self.needs[number]]} for number in range(len(refs))]
        subject = {"type": "application", "bom-ref": "workspace", "name": root.rsplit("/", 1)[-1] or "workspace"}
        if len(members) == 1:
            subject = parts.pop(members[0])
            del subject["scope"]
        else:
            needs.insert(0, {"ref": "workspace", "dependsOn": [refs[member] for member in members]})
        return {
            "$schema": "http://cyclonedx.org/schema/bom-1.5.schema.json",
            "bomFormat": "CycloneDX",
            "specVersion": "1.5",
            "version": 1,
            "metadata": {"component": subject, "tools": {"components": [TOOL]}},
            "components": parts,
            "dependencies": needs,
        }


def quote(text):
    """A text as a part of a url."""
    return urllib.parse.quote(text, safe="-._~")


def place(package, root):
    """Where a package of this machine is, below the root of the workspace if it is there."""
    folder = package["manifest_path"].rsplit("/", 1)[0]
    return "." if folder == root else folder.removeprefix(root + "/")


def reference(package, root):
    """How a package is called in references."""
    return package["id"] if package["source"] else purl(package, root)


def purl(package, root):
    """The package url, with where a package is from that isn't from crates.io."""
    url, source = f"pkg:cargo/{quote(package['name'])}@{quote(package['version'])}", package["source"]
    if source is None:
        return url + "?download_url=" + quote("file://" + place(package, root))
    if source == "registry+https://github.com/rust-lang/crates.io-index":
        return url
    kind, place = source.split("+", 1)
    return url + ("?vcs_url=" + quote(source) if kind == "git" else "?repository_url=" + quote(place))


def licence(text):
    """The licence that a text is: an expression, or else a name."""
    words = re.sub("[/()]", r" \g<0> ", text).split()
    said = "".join("i" if re.fullmatch("[A-Za-z0-9.+:-]+", word) and word not in OPERATORS else "o" if word in OPERATORS else word for word in words)
    while (shorter := re.sub(r"\(i\)|ioi", "i", said)) != said:
        said = shorter
    if said != "i":
        return {"license": {"name": text}}
    text = " ".join("OR" if word == "/" else word for word in words)
    return {"expression": text.replace("( ", "(").replace(" )", ")")}


def component(package, use, root):
    """A package in the bill of materials."""
    kinds = {kind for target in package["targets"] for kind in target["kind"]}
    made = {
        "type": "application" if "bin" in kinds and not kinds & {"lib", "proc-macro"} else "library",
        "bom-ref": reference(package, root),
        "name": package["name"],
        "version": package["version"],
        "scope": "required" if use == "shipped" else "excluded",
        "purl": purl(package, root),
    }
    if package["description"] is not None:
        made["description"] = package["description"]
    if package["authors"]:
        made["author"] = ", ".join(package["authors"])
    known = (("vcs", "repository"), ("website", "homepage"), ("documentation", "documentation"))
    references = [{"type": kind, "url": package[key]} for kind, key in known if package[key] is not None]
    if references:
        made["externalReferences"] = references
    if package["license"]:
        made["licenses"] = [licence(package["license"])]
    elif package["license_file"]:
        made["licenses"] = [{"license": {"name": package["license_file"]}}]
    return made


def identity(one, krate):
    """What a crate of a reading is compared by: name, version, and source or place."""
    package, root = one.packages[krate], one.document["workspace_root"]
    manifest = package["manifest_path"]
    home = package["source"] or (manifest.removeprefix(root) if manifest.startswith(root + "/") else "elsewhere " + manifest)
    return package["name"], package["version"], home


def difference(first, second):
    """What one reading has and another lacks."""
    def lacking(one, other):
        """The crates of one reading that the other lacks."""
        there = {identity(other, krate) for krate in other.crates}
        return [one.crate(number) for number, krate in enumerate(one.crates) if identity(one, krate) not in there]

    def pairs(one):
        """The dependencies of a reading, as two ids each."""
        return [(one.crates[of], one.crates[to]) for to in range(len(one.crates)) for of in one.needed_by[to]]

    def lost(one, other):
        """The dependencies of one reading that the other lacks."""
        there = {(identity(other, of), identity(other, to)) for of, to in pairs(other)}
        return [{"from": of, "to": to} for of, to in pairs(one) if (identity(one, of), identity(one, to)) not in there]

    def features(one, other):
        """The features of one reading that the other lacks, of crates that both have."""
        there = {identity(other, krate): set(other.features(number)) for number, krate in enumerate(other.crates)}
        return [
            {"id": krate, "name": name}
            for number, krate in enumerate(one.crates)
            for name in one.features(number)
            if name not in there.get(identity(one, krate), {name})
        ]

    def versions(crates, name):
        """The versions of the crates of a name."""
        return [crate["version"] for crate in crates if crate["name"] == name]

    removed, added = lacking(first, second), lacking(second, first)
    names = sorted({crate["name"] for crate in removed} & {crate["name"] for crate in added}, key=str.encode)
    return {
        "changed": [{"name": name, "from": versions(removed, name), "to": versions(added, name)} for name in names],
        "removed": removed,
        "added": added,
        "removed_dependencies": lost(first, second),
        "added_dependencies": lost(second, first),
        "removed_features": features(first, second),
        "added_features": features(second, first),
    }


def asked_of(reading):
    """The words that are asked of a reading, with what they have to answer."""
    few = range(len(reading.crates)) if len(reading.crates) <= 200 else range(12)
    yield ("list",), reading.all_crates()
    yield ("tree",), reading.tree(reading.members(), reading.needs)
    yield ("duplicates",), reading.duplicates()
    yield ("licences",), reading.licences()
    yield ("uses",), reading.crates_by_use()
    yield ("sbom",), reading.bill()
    for number in few:
        krate = reading.crates[number]
        yield ("tree", krate), reading.tree([number], reading.needs)
        yield ("dependents", krate), reading.tree([number], reading.needed_by)
        yield ("unreachable", krate), {"id": krate, "unreachable": False}
    for krate in [krate for krate in reading.packages if krate not in reading.crates][:12]:
        yield ("unreachable", krate), {"id": krate, "unreachable": True}


def differences(reading):
    """How many answers there are, and those that differ."""
    asked = list(asked_of(reading))
    with concurrent.futures.ThreadPoolExecutor(os.cpu_count()) as pool:
        told = list(pool.map(lambda one: reading.ask(*one[0], statuses=(0, 1)), asked))
    count, wrong = len(asked), [words for (words, wanted), answer in zip(asked, told) if answer != wanted]
    order, picture = reading.ask("order", statuses=(0, 1)), reading.ask("graph")
    count += 2
    if order["order"] != reading.order() or order["order"] is None and not reading.is_cycle(order["cycle"]):
        wrong.append(("order",))
    if not reading.is_picture(picture):
        wrong.append(("graph",))
    for number in range(min(len(reading.crates), 12)):
        count += 1
        told = reading.ask("features", reading.crates[number])
        if [feature["name"] for feature in told["features"]] != reading.features(number):
            wrong.append(("features", reading.crates[number]))
    return count, wrong


def is_difference(first, other_text, other):
    """Whether what went and came since another document is reported as it has to be."""
    with tempfile.TemporaryDirectory() as folder:
        path = pathlib.Path(folder, "old.json")
        path.write_bytes(other_text)
        return first.ask("diff", str(path)) == difference(other, first)


def compare(folder):
    """Compares the answers about each document, and returns whether nothing differs and something was compared."""
    with made_here("drawn_graphs"):
        return compare_documents(folder)


def compare_documents(folder):
    """The same where the program that draws graphs is there."""
    total, wrong, before = 0, 0, None
    for path, text in documents(folder):
        for name, options in SETTINGS.items():
            reading = Reading(text, options)
            count, failed = differences(reading)
            if before and name == "none":
                count += 1
                failed += [] if is_difference(reading, *before[:2]) else [("diff", str(before[2]))]
            total, wrong = total + count, wrong + len(failed)
            for one in failed[:5]:
                print(f"{path.parent.name}, {name}: {' '.join(one)}")
            before = (text, reading, path) if name == "none" else before
    print(f"{total - wrong} the same, {wrong} different")
    return total > 0 and wrong == 0
