"""Checks what the queries answer against a plain reading of the graph that was printed.

Each document is read by the program of drawn_graphs/ with the word `graph` and with the word `queries`, without an option and for
Linux: the one prints the graph, the other what each query answers, of every node, of every id of the document, of
every feature and of every name. From the lines of the graph, and of the document its members, names and versions,
this module makes the lines that are expected, each by the sentence that says what the query means, and compares.
"""
import json

from compare.graph import Graph, kind_of
from compare.programs import SETTINGS, made_here, printed
from krates_sources import documents


def by_source(graph):
    """The numbers of the edges from each node, ascending."""
    edges = [[] for _ in range(graph.count() + 1)]
    for edge, (source, _, _) in enumerate(graph.edges):
        edges[source].append(edge)
    return edges


def dependents(graph, node):
    """The crates from which an edge leads to the node or to a feature of it, each with the least such edge."""
    least = {}
    for edge, (source, _, _) in enumerate(graph.edges):
        if source < len(graph.crates) and graph.leads_into(edge, node):
            least.setdefault(source, edge)
    return sorted(least.items())


def dependencies(graph, own_edges, node):
    """The crates that the mapping of a crate names, each with the least edge to it or to a feature of it."""
    named = sorted(set(graph.mapping.get(node, {}).values()))
    return [(krate, next(edge for edge in own_edges if graph.leads_into(edge, krate))) for krate in named]


def leading_to(sources, node):
    """The nodes from which a path of edges leads to the node, itself among them."""
    found, left = {node}, [node]
    while left:
        for source in sources[left.pop()] - found:
            found.add(source)
            left.append(source)
    return found


def node_lines(graph, node, own_edges, sources):
    """What is answered for each node."""
    for source, edge in dependents(graph, node):
        yield f"dependent {node} {source} {edge} {graph.crates[source]}"
    above = leading_to(sources, node)
    crates_above = [krate for krate in sorted(above) if krate < len(graph.crates)]
    yield from (f"above {node} {krate} {graph.crates[krate]}" for krate in crates_above)
    if 0 in above:
        yield f"reached {node}"
    for target, edge in dependencies(graph, own_edges, node):
        yield f"dependency {node} {target} {edge} {graph.crates[target]}"
    for edge in own_edges:
        yield f"leads {node} {graph.edges[edge][2]}"
        yield f"to {node} {graph.label(graph.edges[edge][1])}"
    for place, target in sorted(graph.mapping.get(node, {}).items()):
        yield f"resolved {node} {place} {graph.crates[target]}"


def filtered(graph, edges_from, members, kind):
    """The crates that members reach over edges that have no kind or another one, by number."""
    reached, left = set(members), list(members)
    while left:
        for edge in edges_from[left.pop()]:
            _, target, what = graph.edges[edge]
            if kind_of(what) != kind and target not in reached:
                reached.add(target)
                left.append(target)
    return [krate for krate in graph.crates if graph.crates.index(krate) in reached]


def id_lines(graph, document):
    """What is answered for each id of the document: something exactly where the graph has a node of it."""
    number_of = {krate: number for number, krate in enumerate(graph.crates)}
    features = {number: [] for number in range(len(graph.crates))}
    for krate, name in graph.features.values():
        features[krate].append(name)
    for package in document["packages"]:
        number = number_of.get(package["id"])
        if number is None:
            continue
        names = "".join(f" {name}" for name in sorted(features[number], key=str.encode))
        yield f"number {package['id']} {number}"
        yield f"node_of {package['id']} crate {package['id']}"
        yield f"features {package['id']}{names}"
        yield f"found {package['id']} {number} crate {package['id']}"


def feature_lines(graph):
    """What is found of each feature's name, of the first crate and of its own."""
    number_of = {feature: number for number, feature in graph.features.items()}
    for number, (owner, name) in graph.features.items():
        for krate in (0, owner):
            found = number_of.get((krate, name))
            if found is not None:
                yield f"found {graph.crates[krate]} {found} {graph.label(found)}"


def version_of(text):
    """The three numbers of a version, and whether it is a pre-release."""
    core, *pre = text.split("+")[0].split("-", 1)
    return tuple(map(int, core.split("."))), bool(pre)


def fits(wanted, version):
    """Whether a version fits the requirement that is these three numbers: no pre-release does; the first of them that
    isn't zero is the same, and the version isn't below it."""
    numbers, is_before = version
    fixed = next((place for place, number in enumerate(wanted) if number), 2)
    return not is_before and numbers >= wanted and numbers[:fixed + 1] == wanted[:fixed + 1]


def name_lines(graph, packages):
    """What is found by each kept crate's name, and of these what fits its version."""
    for krate in graph.crates:
        name, wanted = packages[krate]["name"], version_of(packages[krate]["version"])[0]
        alike = [(number, other) for number, other in enumerate(graph.crates) if packages[other]["name"] == name]
        for number, other in alike:
            yield f"named {name} {number} {other}"
        for number, other in alike:
            if fits(wanted, version_of(packages[other]["version"])):
                yield f"matching {name} {number} {other}"


def expected(graph, document):
    """The lines that are expected of all queries."""
    packages = {package["id"]: package for package in document["packages"]}
    edges_from = by_source(graph)
    members = [number for number, krate in enumerate(graph.crates) if krate in document["workspace_members"]]
    yield f"len {len(graph.crates)}"
    yield f"root {document['workspace_root']}"
    yield from (f"member crate {graph.crates[number]}" for number in members)
    yield from (f"krate {krate}" for krate in graph.crates)
    yield from (f"krate {number} {krate} {krate}" for number, krate in enumerate(graph.crates))
    sources = [set() for _ in range(graph.count())]
    for source, target, _ in graph.edges:
        sources[target].add(source)
    for node in range(graph.count()):
        yield from node_lines(graph, node, edges_from[node], sources)
    for kind in ("normal", "build", "dev"):
        yield from (f"filtered {kind} {krate}" for krate in filtered(graph, edges_from, members, kind))
    yield from id_lines(graph, document)
    yield from feature_lines(graph)
    yield from name_lines(graph, packages)


def differences(text, options):
    """How many answers there are, and the first few that differ, as they are expected and as they are printed."""
    words = ["--metadata", "-", *options]
    graph, answers = (printed("drawn_graphs", [word, *words], text).splitlines() for word in ("graph", "queries"))
    wanted = list(expected(Graph(graph), json.loads(text)))
    pairs = [(line, other) for line, other in zip(wanted, answers) if line != other]
    if len(wanted) != len(answers):
        pairs.append((f"{len(wanted)} lines", f"{len(answers)} lines"))
    return len(wanted), pairs[:5]


def compare(folder):
    """Compares the answers about each document, and returns whether nothing differs and something was compared."""
    same = different = total = 0
    with made_here("drawn_graphs"):
        for path, text in documents(folder):
            for name, options in SETTINGS.items():
                count, pairs = differences(text, options)
                total += count
                same, different = (same, different + 1) if pairs else (same + 1, different)
                for wanted, answer in pairs:
                    print(f"{path.parent.name}, {name}: expected {wanted!r}, printed {answer!r}")
    print(f"{same} the same, {different} different; {total} answers")
    return same > 0 and different == 0
