//! Which crates a workspace needs, by the features and targets that count, from the output of `cargo metadata`: answered by a static
//! library whose every answer is proved to be the one that the rules of resolution give. [`Graph`], [`Listing`] and [`Options`] are plain
//! Rust around it, and so are the declarations of its calls: these are trusted, as is the function that takes memory.
//!
//! ```no_run
//! use krates_proved::{DepKind, Options, list};
//!
//! let document = std::process::Command::new("cargo")
//!     .args(["metadata", "--format-version", "1"])
//!     .output()?;
//! let listing = list(&document.stdout, Options::new().ignore_kind(DepKind::Dev))?;
//! for id in listing.kept() {
//!     println!("{id}");
//! }
//! # Ok::<(), Box<dyn std::error::Error>>(())
//! ```
//!
//! Every call may be made by any number of threads at once. Where memory runs out, it ends as [`Refusal::Memory`]; only to set
//! [`Options`], and to clone, takes memory as the standard library does, which then ends the process.

#![warn(missing_docs)]

mod ffi;
mod graph;
mod line_feeds;
mod listing;
mod memory;
mod options;
mod reader;
mod refusal;

pub use graph::{Edge, EdgeKind, Graph, Node, NodeId};
pub use listing::Listing;
pub use options::{DepKind, KNOWN_TARGETS, Options};
pub use refusal::Refusal;

use line_feeds::has_id_of_several_lines;
use reader::Fault;

/// Which packages of a document are kept, and which aren't.
///
/// It is refused as `Options`, `Utf8`, `Parse` or `Build`, as `LineFeed` where the id of a package has one, or because memory ran out.
///
/// ```
/// use krates_proved::{Options, Refusal, list};
///
/// assert_eq!(list(b"\xff", &Options::new()), Err(Refusal::Utf8));
/// ```
pub fn list(document: &[u8], options: &Options) -> Result<Listing, Refusal> {
    let words = options.words()?;
    let call = |room: &mut [u8]| ffi::list(document, words.as_bytes(), room);
    match ffi::answered(document.len(), call) {
        Ok(_) if has_id_of_several_lines(document) => Err(Refusal::LineFeed),
        Ok(lines) => Ok(Listing::new(lines)),
        Err(refusal) => Err(options.refused(refusal)),
    }
}

/// The kept graph of a document.
///
/// It is refused as `Options`, `Utf8`, `Parse` or `Build`, or because memory ran out.
///
/// ```
/// use krates_proved::{Options, Refusal, graph};
///
/// let refused = graph(b"{}", &Options::new());
/// assert!(matches!(refused, Err(Refusal::Parse(_))));
/// ```
pub fn graph(document: &[u8], options: &Options) -> Result<Graph, Refusal> {
    let words = options.words()?;
    let call = |room: &mut [u8]| ffi::graph(document, words.as_bytes(), room);
    let lines = ffi::answered(document.len(), call).map_err(|refusal| options.refused(refusal))?;
    match Graph::read(&lines) {
        Ok(graph) => Ok(graph),
        Err(Fault::Memory) => Err(Refusal::Memory),
        Err(Fault::Line) => unreachable!("the library writes the lines of a graph"),
    }
}

/// A derivation of the crate with this package id: a line for each step, with its number, its rule, its fact and the numbers of the
/// steps that it uses. Where there are several derivations, it may be any. Names and ids stand there as they are: one with a line feed
/// makes a line of its own.
///
/// It is refused as [`graph`] is, as `Id` where the text isn't a package id, and as `NotKept` where nothing needs the crate.
///
/// ```
/// use krates_proved::{Options, Refusal, why};
///
/// let refused = why(b"{}", &Options::new(), "serde");
/// assert!(matches!(refused, Err(Refusal::Id(_))));
/// ```
pub fn why(document: &[u8], options: &Options, id: &str) -> Result<String, Refusal> {
    let words = options.words()?;
    let call = |room: &mut [u8]| ffi::why(document, words.as_bytes(), id.as_bytes(), room);
    ffi::answered(document.len(), call).map_err(|refusal| match refusal {
        Refusal::Id(cause) => Refusal::with(Refusal::Id, format_args!("{cause}: {id:?}")),
        refusal => options.refused(refusal),
    })
}

/// What a certificate says of a document under exactly these options, as `cargo krates certify --by krates` writes one, where it holds. No search
/// is made, and none is trusted.
///
/// It is refused as `Options`, `Utf8` or `Parse`, as `Certificate` where it doesn't hold, or because memory ran out.
///
/// ```
/// use krates_proved::{Options, Refusal, check};
///
/// assert_eq!(check(b"\xff", &Options::new(), b"{}"), Err(Refusal::Utf8));
/// ```
pub fn check(document: &[u8], options: &Options, certificate: &[u8]) -> Result<String, Refusal> {
    let words = options.words()?;
    let call = |room: &mut [u8]| ffi::check(document, words.as_bytes(), certificate, room);
    let mut line = ffi::answered(256, call).map_err(|refusal| options.refused(refusal))?;
    line.truncate(line.trim_end_matches('\n').len());
    Ok(line)
}
