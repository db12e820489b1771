//! The example of the Rust crate's own README, over the proved library: what a workspace needs on Windows with all features, which
//! packages are left out, and the graph in the DOT language.
//!
//!     cargo run --example krates_readme -- path/to/a/Cargo.toml
//!
//! With `-` instead of a manifest it reads the document of `cargo metadata` from standard input.

use krates_proved::{EdgeKind, Graph, Node, Options, graph, list};
use std::error::Error;
use std::io::Read;
use std::process::Command;

/// What cargo writes of the workspace of a manifest, with all features.
fn metadata(manifest: &str) -> Result<Vec<u8>, Box<dyn Error>> {
    let cargo = std::env::var("CARGO").unwrap_or_else(|_| "cargo".into());
    let words = [
        "metadata",
        "--format-version",
        "1",
        "--all-features",
        "--manifest-path",
        manifest,
    ];
    let output = Command::new(cargo).args(words).output()?;
    if !output.status.success() {
        return Err(String::from_utf8_lossy(&output.stderr).into());
    }
    Ok(output.stdout)
}

fn main() -> Result<(), Box<dyn Error>> {
    let manifest = std::env::args().nth(1).ok_or("a manifest is missing")?;
    let mut document = Vec::new();
    match manifest.as_str() {
        "-" => drop(std::io::stdin().read_to_end(&mut document)?),
        manifest => document = metadata(manifest)?,
    }

    let mut options = Options::new();
    options.include_targets(["x86_64-pc-windows-msvc"]);

    for id in list(&document, &options)?.others() {
        println!("Crate {id} was filtered out");
    }
    print_dot(&graph(&document, &options)?);
    Ok(())
}

fn print_dot(graph: &Graph) {
    println!("digraph {{");
    for (number, node) in graph.nodes().iter().enumerate() {
        let label = match node {
            Node::Krate { id, .. } => format!("crate {id}"),
            Node::Feature { name, .. } => format!("feature {name}"),
        };
        println!("    {number} [ label = {label:?} ]");
    }
    for edge in graph.edges() {
        let label = match &edge.kind {
            EdgeKind::Dep { kind, .. } | EdgeKind::DepFeature { kind, .. } => kind.to_string(),
            EdgeKind::Feature => String::new(),
        };
        println!("    {} -> {} [ label = {label:?} ]", edge.source, edge.target);
    }
    println!("}}");
}
