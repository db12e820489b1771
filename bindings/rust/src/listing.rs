//! The packages of a document.

/// The packages of a document: those that are kept, and the others, both in the order of their ids. No id has a line feed.
#[derive(Clone, Debug, PartialEq, Eq)]
pub struct Listing {
    lines: String,
}

impl Listing {
    pub(crate) fn new(lines: String) -> Listing {
        Listing { lines }
    }

    /// The ids of the packages that are kept, as the document has them.
    pub fn kept(&self) -> impl Iterator<Item = &str> {
        self.marked("+ ")
    }

    /// The ids of the others.
    pub fn others(&self) -> impl Iterator<Item = &str> {
        self.marked("- ")
    }

    /// The lines, as `krates-list` writes them: each id after `+ ` or `- `.
    pub fn as_str(&self) -> &str {
        &self.lines
    }

    fn marked(&self, mark: &'static str) -> impl Iterator<Item = &str> {
        // not `lines`, which takes a carriage return off the end of an id
        self.lines
            .split_terminator('\n')
            .filter_map(move |line| line.strip_prefix(mark))
    }
}

#[cfg(test)]
mod tests {
    use super::*;

    #[test]
    fn ids_are_whole() {
        let listing = Listing::new("+ a\r\n+  b \n- c\u{2028}\r\r\n- \r\n".to_owned());
        assert!(listing.kept().eq(["a\r", " b "]));
        assert!(listing.others().eq(["c\u{2028}\r\r", "\r"]));
    }
}
