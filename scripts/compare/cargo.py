"""Compares what `units_of` derives about a build of a workspace with what the installed cargo would build; nothing is built.

The words behind the workspace are those of `cargo build` that the program knows, so neither a manifest nor a profile. Cargo is asked in
the workspace's folder, without a network, and with no flags of the environment for rustc.
"""
import os
import pathlib
import subprocess
import sys
import tempfile
import tomllib

from compare.builds import SHOWN, Build
from compare.programs import made_here

SET_ASIDE = ("RUSTFLAGS", "CARGO_BUILD_TARGET", "CARGO_ENCODED_RUSTFLAGS", "RUSTC_BOOTSTRAP")
# lets a stable cargo print unit graphs
UNSTABLE = {"RUSTC_BOOTSTRAP": "1"}
OF_EDITION = {"2021": "2", "2024": "3"}


def told(folder, *words, more=UNSTABLE):
    """What a command prints in a folder, with these variables too; None if it fails, and then standard error has its errors, with control characters by
    number."""
    env = {name: value for name, value in os.environ.items() if name not in SET_ASIDE} | more
    ran = subprocess.run(words, cwd=folder, env=env, capture_output=True, check=False)
    if ran.returncode:
        print(ascii(ran.stderr.decode(errors="replace").strip()), file=sys.stderr)
        return None
    return ran.stdout


def resolver_of(manifest):
    """The resolver that a root's manifest asks for (The Cargo Book, "Resolver versions")."""
    package, workspace = manifest.get("package", {}), manifest.get("workspace", {})
    asked = workspace.get("resolver") or package.get("resolver")
    edition = package.get("edition", "2015")
    if isinstance(edition, dict):
        edition = workspace.get("package", {}).get("edition", "2015")
    return asked or OF_EDITION.get(edition, "1")


def host_of(folder):
    """The triple of the machine that builds."""
    lines = (told(folder, "rustc", "-vV") or b"").decode().splitlines()
    return next((line.removeprefix("host: ") for line in lines if line.startswith("host: ")), None)


def asked_of(folder, words, machines):
    """The resolver, the folder with what rustc says of the machines, and the host; None if rustc doesn't know a target."""
    root = told(folder, "cargo", "locate-project", "--workspace", "--message-format", "plain")
    host = host_of(folder)
    if root is None or host is None:
        return None
    targets = [value for word, value in zip(words, words[1:]) if word == "--target"]
    for triple in {host, *targets}:
        printed = told(folder, "rustc", "--print", "cfg", "--target", triple)
        if printed is None:
            return None
        (machines / f"{triple}.txt").write_bytes(printed)
    manifest = tomllib.loads(pathlib.Path(root.decode().strip()).read_text(encoding="utf-8"))
    return resolver_of(manifest), machines, host


def compare(folder, *words):
    """Compares a build of a workspace, and returns whether nothing differs."""
    with tempfile.TemporaryDirectory() as machines:
        asked = asked_of(folder, words, pathlib.Path(machines))
        document = told(folder, "cargo", "metadata", "--format-version", "1", "--all-features", "--offline")
        graph = told(folder, "cargo", "build", "--unit-graph", "-Z", "unstable-options", "--offline", *words)
        if asked is None or document is None or graph is None:
            return False
        with made_here("built_units"):
            build = Build(asked, words, document)
    found = build.differences(graph)
    print("\n".join([ascii(line) for line in found[:SHOWN]] or [f"{len(build.units())} units and {len(build.edges())} edges agree"]))
    return not found
