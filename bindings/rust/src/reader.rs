//! The lines of a graph, as the library writes them: a text comes after its length, so that it may have anything.

use crate::graph::{Edge, EdgeKind, Node};
use crate::memory::push;
use crate::options::DepKind;
use std::collections::TryReserveError;

/// Why lines aren't read.
#[derive(Debug, PartialEq, Eq)]
pub(crate) enum Fault {
    /// One isn't that of a node or an edge.
    Line,
    /// Memory ran out.
    Memory,
}

impl From<TryReserveError> for Fault {
    fn from(_: TryReserveError) -> Fault {
        Fault::Memory
    }
}

/// What a line says.
pub(crate) enum Line {
    Node(Node),
    Edge(Edge),
}

/// What is left of the lines.
pub(crate) struct Reader<'t> {
    rest: &'t str,
}

impl<'t> Reader<'t> {
    pub(crate) fn new(lines: &'t str) -> Reader<'t> {
        Reader { rest: lines }
    }

    /// The next line, if one is left.
    pub(crate) fn line(&mut self) -> Result<Option<Line>, Fault> {
        if self.rest.is_empty() {
            return Ok(None);
        }
        let line = match self.word()? {
            "crate" => Line::Node(self.krate()?),
            "feature" => Line::Node(self.feature()?),
            "edge" => Line::Edge(self.edge()?),
            _ => return Err(Fault::Line),
        };
        Ok(Some(line))
    }

    /// The text before the next space or the end of the line, and whether it is the end.
    fn before(&mut self) -> Result<(&'t str, bool), Fault> {
        let at = self.rest.find([' ', '\n']).ok_or(Fault::Line)?;
        let (text, rest) = self.rest.split_at(at);
        self.rest = &rest[1..];
        Ok((text, rest.starts_with('\n')))
    }

    /// A word, and what ends it.
    fn word(&mut self) -> Result<&'t str, Fault> {
        Ok(self.before()?.0)
    }

    /// A number, and what ends it.
    fn number(&mut self) -> Result<usize, Fault> {
        number_of(self.word()?)
    }

    /// A text after its length.
    fn text(&mut self) -> Result<String, Fault> {
        let (length, rest) = self.rest.split_once(':').ok_or(Fault::Line)?;
        let (whole, rest) = rest.split_at_checked(number_of(length)?).ok_or(Fault::Line)?;
        self.rest = rest;
        let mut text = String::new();
        text.try_reserve_exact(whole.len())?;
        text.push_str(whole);
        Ok(text)
    }

    /// The end of a line.
    fn end(&mut self) -> Result<(), Fault> {
        self.rest = self.rest.strip_prefix('\n').ok_or(Fault::Line)?;
        Ok(())
    }

    fn krate(&mut self) -> Result<Node, Fault> {
        let id = self.text()?;
        let (entries, rest) = self.rest.split_once('\n').ok_or(Fault::Line)?;
        self.rest = rest;
        let mut dep_mapping = Vec::new();
        for entry in entries.split_ascii_whitespace() {
            let krate = match entry {
                "-" => None,
                number => Some(number_of(number)?),
            };
            push(&mut dep_mapping, krate)?;
        }
        Ok(Node::Krate { id, dep_mapping })
    }

    fn feature(&mut self) -> Result<Node, Fault> {
        let (krate_index, name) = (self.number()?, self.text()?);
        self.end()?;
        Ok(Node::Feature { krate_index, name })
    }

    fn edge(&mut self) -> Result<Edge, Fault> {
        let (source, target) = (self.number()?, self.number()?);
        let kind = match self.word()? {
            "feature" => EdgeKind::Feature,
            "dep" => {
                let (kind, cfg) = self.purpose()?;
                EdgeKind::Dep { kind, cfg }
            }
            "depfeature" => {
                let (kind, cfg) = self.purpose()?;
                EdgeKind::DepFeature { kind, cfg }
            }
            _ => return Err(Fault::Line),
        };
        Ok(Edge { source, target, kind })
    }

    /// The kind of an edge, the target that it is for, and the end of the line.
    fn purpose(&mut self) -> Result<(DepKind, Option<String>), Fault> {
        let (kind, is_all) = self.before()?;
        let kind = match kind {
            "normal" => DepKind::Normal,
            "build" => DepKind::Build,
            "dev" => DepKind::Dev,
            _ => return Err(Fault::Line),
        };
        if is_all {
            return Ok((kind, None));
        }
        let cfg = self.text()?;
        self.end()?;
        Ok((kind, Some(cfg)))
    }
}

fn number_of(word: &str) -> Result<usize, Fault> {
    word.parse().map_err(|_| Fault::Line)
}
