//! Why there is no answer.

use crate::memory::text_of;
use std::collections::TryReserveError;
use std::fmt;

/// Why there is no answer. Each is true of what was asked, except that memory may always run out; the first that is true counts.
///
/// What comes from a document or a certificate is shown in these texts: a control character, or one that turns the direction, by its
/// number, as `\u{1b}`. So it can neither end a line nor move the cursor.
#[derive(Clone, Debug, PartialEq, Eq)]
pub enum Refusal {
    /// An option can't be meant: a specification that can't be read, a line feed in a value, or a target of which nothing is known.
    Options(String),
    /// The text of an id isn't one.
    Id(String),
    /// The document is not UTF-8.
    Utf8,
    /// The text is not a document of `cargo metadata`, for this reason.
    Parse(String),
    /// The document has no graph of crates under the options, for this reason.
    Build(String),
    /// The id of a package has a line feed, so that a listing has a line that isn't an id. [`graph`](crate::graph) hands such ids over.
    LineFeed,
    /// The crate that is to be explained is not kept.
    NotKept(String),
    /// The certificate does not hold, for this reason.
    Certificate(String),
    /// Memory ran out.
    Memory,
}

impl Refusal {
    /// That of a status, with the text that was handed over.
    pub(crate) fn of(status: u32, text: String) -> Refusal {
        match status {
            1 => Refusal::Options(text),
            2 => Refusal::Id(text),
            3 => Refusal::Utf8,
            4 => Refusal::Parse(text),
            5 => Refusal::Build(text),
            6 => Refusal::NotKept(text),
            7 => Refusal::Certificate(text),
            9 => Refusal::Memory,
            _ => unreachable!("the library has no status {status}"),
        }
    }

    /// The refusal with this cause; that of memory, where there is none for its text.
    pub(crate) fn with(refusal: fn(String) -> Refusal, cause: fmt::Arguments<'_>) -> Refusal {
        text_of(cause).map_or_else(|no_memory| no_memory, refusal)
    }
}

impl fmt::Display for Refusal {
    fn fmt(&self, f: &mut fmt::Formatter<'_>) -> fmt::Result {
        match self {
            Refusal::Options(cause)
            | Refusal::Id(cause)
            | Refusal::Parse(cause)
            | Refusal::Build(cause)
            | Refusal::NotKept(cause)
            | Refusal::Certificate(cause) => f.write_str(cause),
            Refusal::Utf8 => f.write_str("the document is not UTF-8"),
            Refusal::LineFeed => f.write_str("the id of a package has a line feed"),
            Refusal::Memory => f.write_str("out of memory"),
        }
    }
}

impl std::error::Error for Refusal {}

impl From<TryReserveError> for Refusal {
    fn from(_: TryReserveError) -> Refusal {
        Refusal::Memory
    }
}
