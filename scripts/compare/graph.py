"""A drawn graph, as the lines say it that the program of drawn_graphs/ prints for the word `graph`."""


class Graph:
    """The lines of a graph: what each node is, what each mapping names, and from where to where each edge leads."""

    def __init__(self, lines):
        """Reads the lines."""
        self.crates, self.features, self.mapping, self.edges = [], {}, {}, []
        for line in lines:
            word, rest = line.split(" ", 1)
            if word == "node":
                self.add_node(*rest.split(" ", 2))
            elif word == "map":
                krate, place, target = map(int, rest.split(" "))
                self.mapping.setdefault(krate, {})[place] = target
            else:
                _, source, target, what = rest.split(" ", 3)
                self.edges.append((int(source), int(target), what))

    def add_node(self, number, what, text):
        """Adds a crate, or a feature of a crate that was added."""
        assert int(number) == len(self.crates) + len(self.features), "nodes are numbered from 0"
        if what == "crate":
            self.crates.append(text)
        else:
            krate, _, name = text.rpartition("/")
            self.features[int(number)] = (self.crates.index(krate), name)

    def count(self):
        """How many nodes there are."""
        return len(self.crates) + len(self.features)

    def label(self, number):
        """What a node is, as a line has it."""
        if number < len(self.crates):
            return f"crate {self.crates[number]}"
        krate, name = self.features[number]
        return f"feature {self.crates[krate]}/{name}"

    def leads_into(self, edge, node):
        """Whether an edge leads to a node or to a feature of it."""
        target = self.edges[edge][1]
        return target == node or (target in self.features and self.features[target][0] == node)


def kind_of(what):
    """The kind that an edge has; none for what a feature leads to."""
    return None if what == "feature" else what.split(" ")[1]
