//! Names the two archives: the proved one, and the toolchain's, which has the functions by which it takes memory.

use std::path::PathBuf;

fn main() {
    println!("cargo:rerun-if-env-changed=KRATES_LIB_DIR");
    let beside = || PathBuf::from(env!("CARGO_MANIFEST_DIR")).join("../out");
    let folder = std::env::var_os("KRATES_LIB_DIR").map_or_else(beside, PathBuf::from);
    let archives = ["libkrates_c.a", "liblibc_c.a"].map(|name| folder.join(name));
    for archive in &archives {
        println!("cargo:rerun-if-changed={}", archive.display());
    }
    if let Some(missing) = archives.iter().find(|archive| !archive.exists()) {
        println!(
            "cargo::error={} is not there: `scripts/library.sh bindings --unproved` makes it in two minutes, and \
             `scripts/library.sh bindings` the proved one, after `rt ci`; KRATES_LIB_DIR names another folder",
            missing.display()
        );
    }
    println!("cargo:rustc-link-search=native={}", folder.display());
    println!("cargo:rustc-link-lib=static=krates_c");
    println!("cargo:rustc-link-lib=static=libc_c");
}
