//! The example of the README: what the workspace in the current directory needs, apart from its tests.

use krates_proved::{DepKind, Options, list};

fn main() -> Result<(), Box<dyn std::error::Error>> {
    let mut cargo = std::process::Command::new("cargo");
    let document = cargo.args(["metadata", "--format-version", "1"]).output()?.stdout;
    for id in list(&document, Options::new().ignore_kind(DepKind::Dev))?.kept() {
        println!("{id}");
    }
    Ok(())
}
