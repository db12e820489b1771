//! What is asked.

use crate::memory::text_of;
use crate::refusal::Refusal;
use std::fmt;

/// The kind of a dependency.
#[derive(Clone, Copy, Debug, PartialEq, Eq, PartialOrd, Ord, Hash)]
pub enum DepKind {
    /// `[dependencies]`
    Normal,
    /// `[build-dependencies]`
    Build,
    /// `[dev-dependencies]`
    Dev,
}

impl fmt::Display for DepKind {
    fn fmt(&self, f: &mut fmt::Formatter<'_>) -> fmt::Result {
        f.write_str(match self {
            DepKind::Normal => "normal",
            DepKind::Build => "build",
            DepKind::Dev => "dev",
        })
    }
}

/// The targets whose properties are known by their triples.
pub const KNOWN_TARGETS: [&str; 7] = [
    "x86_64-unknown-linux-gnu",
    "x86_64-unknown-linux-musl",
    "aarch64-unknown-linux-gnu",
    "x86_64-pc-windows-msvc",
    "x86_64-apple-darwin",
    "aarch64-apple-darwin",
    "wasm32-unknown-unknown",
];

/// Which part of a document counts: with nothing set, its root, or every member of the workspace where it has none, with all that
/// these need.
///
/// ```
/// use krates_proved::{DepKind, Options};
///
/// let mut options = Options::new();
/// options
///     .ignore_kind(DepKind::Dev)
///     .exclude(["openssl@0.10.64"])
///     .include_targets(["x86_64-unknown-linux-gnu"]);
/// ```
#[derive(Clone, Debug, Default, PartialEq, Eq)]
pub struct Options {
    workspace: bool,
    all_named: bool,
    ignored: Vec<DepKind>,
    exclusions: Vec<String>,
    targets: Vec<String>,
}

impl Options {
    /// Nothing is set.
    pub fn new() -> Options {
        Options::default()
    }

    /// Whether every member of the workspace is a root, also where the graph has a root of its own. The last call counts.
    pub fn workspace(&mut self, is_on: bool) -> &mut Options {
        self.workspace = is_on;
        self
    }

    /// Whether a dependency's name in a feature reference means all dependencies that match it, rather than only the least of them
    /// by id. The last call counts.
    pub fn all_named(&mut self, is_on: bool) -> &mut Options {
        self.all_named = is_on;
        self
    }

    /// Ignores the dependencies of this kind too, whichever crate has them.
    pub fn ignore_kind(&mut self, kind: DepKind) -> &mut Options {
        self.ignored.push(kind);
        self
    }

    /// Leaves out the packages that one of these specifications fits too (Cargo Book, "Package ID Specifications").
    pub fn exclude<T: Into<String>>(&mut self, specs: impl IntoIterator<Item = T>) -> &mut Options {
        self.exclusions.extend(specs.into_iter().map(Into::into));
        self
    }

    /// Keeps only dependencies for one of these targets, in addition to those that are set already: triples of [`KNOWN_TARGETS`], since
    /// nothing is known of any other. For another target let cargo leave out what it doesn't need:
    /// `cargo metadata --filter-platform TRIPLE`.
    pub fn include_targets<T: Into<String>>(&mut self, triples: impl IntoIterator<Item = T>) -> &mut Options {
        self.targets.extend(triples.into_iter().map(Into::into));
        self
    }

    /// The words that mean this, one in each line.
    pub(crate) fn words(&self) -> Result<String, Refusal> {
        if let Some(spec) = self.exclusions.iter().find(|spec| spec.contains(['\n', '\r'])) {
            let cause = format_args!("an option of several lines: {spec:?}");
            return Err(Refusal::with(Refusal::Options, cause));
        }
        let is_known = |triple: &String| KNOWN_TARGETS.contains(&triple.as_str());
        if let Some(triple) = self.targets.iter().find(|triple| !is_known(triple)) {
            let cause = format_args!("nothing is known of the target {triple:?}");
            return Err(Refusal::with(Refusal::Options, cause));
        }
        text_of(Words(self))
    }

    /// The refusal of these options, which names what may be at fault: only a specification can be.
    pub(crate) fn refused(&self, refusal: Refusal) -> Refusal {
        match refusal {
            Refusal::Options(_) => {
                let specs = Listed(&self.exclusions);
                Refusal::with(Refusal::Options, format_args!("not a package specification: {specs}"))
            }
            refusal => refusal,
        }
    }
}

/// The words of options, one in each line.
struct Words<'o>(&'o Options);

impl fmt::Display for Words<'_> {
    fn fmt(&self, f: &mut fmt::Formatter<'_>) -> fmt::Result {
        if self.0.workspace {
            f.write_str("--workspace\n")?;
        }
        if self.0.all_named {
            f.write_str("--all-named\n")?;
        }
        for kind in &self.0.ignored {
            write!(f, "--ignore-kind\n{kind}\n")?;
        }
        for spec in &self.0.exclusions {
            write!(f, "--exclude\n{spec}\n")?;
        }
        for triple in &self.0.targets {
            write!(f, "--target\n{triple}\n")?;
        }
        Ok(())
    }
}

/// Texts, with commas between.
struct Listed<'t>(&'t [String]);

impl fmt::Display for Listed<'_> {
    fn fmt(&self, f: &mut fmt::Formatter<'_>) -> fmt::Result {
        for (number, text) in self.0.iter().enumerate() {
            let comma = if number == 0 { "" } else { ", " };
            write!(f, "{comma}{text}")?;
        }
        Ok(())
    }
}
