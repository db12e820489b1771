//! The graph of a document, by number.

use crate::memory::push;
use crate::options::DepKind;
use crate::reader::{Fault, Line, Reader};
use crate::refusal::Refusal;

/// The number of a node, counted from 0: the crates come first, by name, version and source, then the enabled features, by crate
/// and then by name.
pub type NodeId = usize;

/// A node of the graph.
#[derive(Clone, Debug, PartialEq, Eq)]
pub enum Node {
    /// A kept crate.
    Krate {
        /// Its id, as the document has it.
        id: String,
        /// For each declared dependency of its package the crate that it means, if one is kept for it.
        dep_mapping: Vec<Option<NodeId>>,
    },
    /// An enabled feature of a kept crate.
    Feature {
        /// Its crate.
        krate_index: NodeId,
        /// Its name.
        name: String,
    },
}

/// What an edge says.
#[derive(Clone, Debug, PartialEq, Eq)]
pub enum EdgeKind {
    /// A crate depends on a crate: by a dependency of this kind, for this target, or for all.
    Dep {
        /// Its kind.
        kind: DepKind,
        /// Its target.
        cfg: Option<String>,
    },
    /// A crate depends on a feature of a crate, likewise.
    DepFeature {
        /// Its kind.
        kind: DepKind,
        /// Its target.
        cfg: Option<String>,
    },
    /// A feature leads to a crate or a feature, or a crate to a feature that it toggles.
    Feature,
}

/// An edge of the graph.
#[derive(Clone, Debug, PartialEq, Eq)]
pub struct Edge {
    /// The node that it leaves.
    pub source: NodeId,
    /// The node that it enters.
    pub target: NodeId,
    /// What it says.
    pub kind: EdgeKind,
}

/// The kept graph of a document: exactly the crates, enabled features and edges that follow by the rules of resolution.
///
/// What is asked of it here is plain Rust over what the proved library handed over; only [`nodes`](Graph::nodes) and
/// [`edges`](Graph::edges) are proved.
#[derive(Clone, Debug, PartialEq, Eq)]
pub struct Graph {
    nodes: Vec<Node>,
    edges: Vec<Edge>,
    krates: usize,
}

impl Graph {
    /// The graph of these lines.
    pub(crate) fn read(lines: &str) -> Result<Graph, Fault> {
        let mut reader = Reader::new(lines);
        let (mut nodes, mut edges, mut krates) = (Vec::new(), Vec::new(), 0);
        while let Some(line) = reader.line()? {
            match line {
                Line::Node(node) => {
                    krates += usize::from(matches!(node, Node::Krate { .. }));
                    push(&mut nodes, node)?;
                }
                Line::Edge(edge) => push(&mut edges, edge)?,
            }
        }
        Ok(Graph { nodes, edges, krates })
    }

    /// How many crates are kept: their nodes are those with numbers below this one.
    pub fn len(&self) -> usize {
        self.krates
    }

    /// Whether no crate is kept, which no graph of a document is.
    pub fn is_empty(&self) -> bool {
        self.krates == 0
    }

    /// The nodes, each at its number.
    pub fn nodes(&self) -> &[Node] {
        &self.nodes
    }

    /// The edges, each at its number.
    pub fn edges(&self) -> &[Edge] {
        &self.edges
    }

    /// The ids of the kept crates, each at its number.
    pub fn krates(&self) -> impl Iterator<Item = &str> {
        self.nodes.iter().filter_map(|node| match node {
            Node::Krate { id, .. } => Some(id.as_str()),
            Node::Feature { .. } => None,
        })
    }

    /// The number of the kept crate with this id, as the document has it.
    pub fn nid_for_kid(&self, id: &str) -> Option<NodeId> {
        self.krates().position(|kept| kept == id)
    }

    /// The names of the enabled features of a crate, in order.
    pub fn get_enabled_features(&self, krate: NodeId) -> impl Iterator<Item = &str> {
        self.nodes.iter().filter_map(move |node| match node {
            Node::Feature { krate_index, name } if *krate_index == krate => Some(name.as_str()),
            _ => None,
        })
    }

    /// The edges that leave a node, by number.
    pub fn get_deps(&self, node: NodeId) -> impl Iterator<Item = &Edge> {
        self.edges.iter().filter(move |edge| edge.source == node)
    }

    /// The crate that the declared dependency at this place of the package of a crate means, if one is kept for it.
    pub fn resolved_dependency(&self, krate: NodeId, place: usize) -> Option<NodeId> {
        match self.nodes.get(krate)? {
            Node::Krate { dep_mapping, .. } => *dep_mapping.get(place)?,
            Node::Feature { .. } => None,
        }
    }

    /// The crates on which a crate depends directly, ascending. It is refused only as `Memory`.
    pub fn direct_dependencies(&self, krate: NodeId) -> Result<Vec<NodeId>, Refusal> {
        match self.nodes.get(krate) {
            Some(Node::Krate { dep_mapping, .. }) => ascending(dep_mapping.iter().flatten().copied()),
            _ => Ok(Vec::new()),
        }
    }

    /// The crates with an edge to a node or, for a crate, to a feature of it, ascending. It is refused only as `Memory`.
    pub fn direct_dependents(&self, node: NodeId) -> Result<Vec<NodeId>, Refusal> {
        let leads = |edge: &&Edge| edge.source < self.krates && self.is_of(edge.target, node);
        ascending(self.edges.iter().filter(leads).map(|edge| edge.source))
    }

    /// Whether the node is this one, or a feature of it.
    fn is_of(&self, node: NodeId, asked: NodeId) -> bool {
        node == asked || matches!(&self.nodes[node], Node::Feature { krate_index, .. } if *krate_index == asked)
    }
}

/// The numbers, each once, ascending.
fn ascending(numbers: impl Iterator<Item = NodeId>) -> Result<Vec<NodeId>, Refusal> {
    let mut distinct = Vec::new();
    for number in numbers {
        push(&mut distinct, number)?;
    }
    distinct.sort_unstable();
    distinct.dedup();
    Ok(distinct)
}

#[cfg(test)]
mod tests {
    use super::*;

    #[test]
    fn texts_are_read_whole() {
        let lines = "crate 4:a\n b 1 -\nfeature 0 3:x:y\nedge 0 1 depfeature dev 9:cfg(unix)\nedge 1 0 feature\n";
        let graph = Graph::read(lines).unwrap();
        let (id, dep_mapping) = ("a\n b".to_owned(), vec![Some(1), None]);
        let (krate_index, name) = (0, "x:y".to_owned());
        assert_eq!(
            graph.nodes(),
            [Node::Krate { id, dep_mapping }, Node::Feature { krate_index, name }]
        );
        let (kind, cfg) = (DepKind::Dev, Some("cfg(unix)".to_owned()));
        let kinds: Vec<&EdgeKind> = graph.edges().iter().map(|edge| &edge.kind).collect();
        assert_eq!(kinds, [&EdgeKind::DepFeature { kind, cfg }, &EdgeKind::Feature]);
    }

    #[test]
    fn other_lines_are_refused() {
        for lines in ["crate 3:a\n", "edge 0 1 dep\n", "node 0\n", "feature 0 1:a"] {
            assert_eq!(Graph::read(lines), Err(Fault::Line), "{lines:?}");
        }
    }
}
