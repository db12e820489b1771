//! The library beside the program `krates-list`, which is built of the same crates, over documents of this repository, one of which
//! cargo writes here.

use krates_proved::{DepKind, EdgeKind, Graph, Node, Options, Refusal, check, graph, list, why};
use std::io::Write;
use std::path::{Path, PathBuf};
use std::process::{Command, Output, Stdio};
use std::sync::OnceLock;
use std::{env, fs, thread};

fn repository() -> PathBuf {
    Path::new(env!("CARGO_MANIFEST_DIR")).join("../..")
}

/// What the installed cargo writes of the workspace beside this file.
fn workspace() -> &'static [u8] {
    static DOCUMENT: OnceLock<Vec<u8>> = OnceLock::new();
    DOCUMENT.get_or_init(|| {
        let manifest = Path::new(env!("CARGO_MANIFEST_DIR")).join("tests/workspace/Cargo.toml");
        let output = Command::new(env!("CARGO"))
            .args([
                "metadata",
                "--format-version",
                "1",
                "--offline",
                "--locked",
                "--manifest-path",
            ])
            .arg(manifest)
            .output()
            .expect("cargo runs");
        assert!(output.status.success(), "{}", String::from_utf8_lossy(&output.stderr));
        output.stdout
    })
}

fn documents() -> Vec<Vec<u8>> {
    let small = ["krates_list/stdin", "krates_check/data/document.json"];
    let read = |name| fs::read(repository().join("crates").join(name)).expect("the document is there");
    let mut all: Vec<Vec<u8>> = small.map(read).into();
    all.push(workspace().to_vec());
    all
}

/// What the program writes of a document; `KRATES_LIST` names it.
fn program(document: &[u8], words: &[&str]) -> Output {
    let named = env::var_os("KRATES_LIST").map(PathBuf::from);
    let path = named.unwrap_or_else(|| repository().join("crates/krates_list/out/krates_list"));
    let mut child = Command::new(&path)
        .args(words)
        .stdin(Stdio::piped())
        .stdout(Stdio::piped())
        .stderr(Stdio::piped())
        .spawn()
        .unwrap_or_else(|cause| panic!("{}: {cause}", path.display()));
    child
        .stdin
        .take()
        .expect("it reads")
        .write_all(document)
        .expect("it reads to the end");
    child.wait_with_output().expect("it ends")
}

/// Options, each with the words that mean them.
fn settings() -> Vec<(Options, Vec<&'static str>)> {
    let mut all = vec![(Options::new(), vec![])];
    let mut add = |words: &[&'static str], set: fn(&mut Options) -> &mut Options| {
        let mut options = Options::new();
        set(&mut options);
        all.push((options, words.to_vec()));
    };
    add(&["--ignore-kind", "dev"], |o| o.ignore_kind(DepKind::Dev));
    add(&["--workspace", "--all-named"], |o| o.workspace(true).all_named(true));
    add(&["--exclude", "b", "--exclude", "store@1.2.0"], |o| {
        o.exclude(["b", "store@1.2.0"])
    });
    add(&["--target", "x86_64-unknown-linux-gnu"], |o| {
        o.include_targets(["x86_64-unknown-linux-gnu"])
    });
    add(&["--ignore-kind", "build", "--target", "x86_64-pc-windows-msvc"], |o| {
        o.ignore_kind(DepKind::Build)
            .include_targets(["x86_64-pc-windows-msvc"])
    });
    all
}

fn listed(document: &[u8], options: &Options) -> String {
    list(document, options).expect("it is listed").as_str().to_owned()
}

#[test]
fn lists_as_the_program_does() {
    for document in documents() {
        for (options, words) in settings() {
            let output = program(&document, &words);
            assert!(output.status.success(), "{words:?}");
            assert_eq!(listed(&document, &options).as_bytes(), output.stdout, "{words:?}");
        }
    }
}

#[test]
fn explains_as_the_program_does() {
    for document in documents() {
        let options = Options::new();
        for id in list(&document, &options).expect("it is listed").kept() {
            let lines = why(&document, &options, id).expect("a kept crate is explained");
            assert_eq!(lines.as_bytes(), program(&document, &["--why", id]).stdout, "{id}");
        }
    }
}

#[test]
fn keeps_in_the_graph_what_it_lists() {
    for document in documents() {
        for (options, words) in settings() {
            let listing = list(&document, &options).expect("it is listed");
            let graph = graph(&document, &options).expect("it is drawn");
            assert!(graph.krates().eq(listing.kept()), "{words:?}");
            assert_eq!(graph.len(), listing.kept().count());
        }
    }
}

/// The name of a crate of the workspace.
fn name(graph: &Graph, number: usize) -> &str {
    let id = graph.krates().nth(number).expect("it is a crate");
    let folder = id.split('#').next().expect("a part before the version");
    folder.rsplit('/').next().expect("a last part of the path")
}

fn number(graph: &Graph, asked: &str) -> usize {
    (0..graph.len())
        .find(|&number| name(graph, number) == asked)
        .expect("it is kept")
}

fn names(graph: &Graph, numbers: Result<Vec<usize>, Refusal>) -> Vec<&str> {
    let numbers = numbers.expect("there is memory");
    numbers.into_iter().map(|number| name(graph, number)).collect()
}

#[test]
fn answers_what_the_manifests_say() {
    let graph = graph(workspace(), Options::new().ignore_kind(DepKind::Dev)).expect("it is drawn");
    let (shop, store, tables) = (
        number(&graph, "shop"),
        number(&graph, "store"),
        number(&graph, "tables"),
    );
    assert_eq!(
        names(&graph, graph.direct_dependencies(shop)),
        ["console", "remote", "tables"]
    );
    assert_eq!(names(&graph, graph.direct_dependents(tables)), ["shop", "store"]);
    assert_eq!(names(&graph, graph.direct_dependencies(store)), ["remote", "tables"]);
    assert!(graph.get_enabled_features(shop).eq(["default", "online"]));
    let id = graph.krates().nth(shop).expect("it is kept");
    assert_eq!(graph.nid_for_kid(id), Some(shop));
    let kinds: Vec<&EdgeKind> = graph.get_deps(shop).map(|edge| &edge.kind).collect();
    let (kind, cfg) = (DepKind::Normal, Some("cfg(windows)".to_owned()));
    assert!(kinds.contains(&&EdgeKind::Dep { kind, cfg }), "{kinds:?}");
    let (kind, cfg) = (DepKind::Build, None);
    assert!(kinds.contains(&&EdgeKind::Dep { kind, cfg }), "{kinds:?}");
}

#[test]
fn leaves_out_what_is_for_another_target() {
    let linux = graph(
        workspace(),
        Options::new().include_targets(["x86_64-unknown-linux-gnu"]),
    )
    .expect("it is drawn");
    let shop = number(&linux, "shop");
    assert!(!names(&linux, linux.direct_dependencies(shop)).contains(&"console"));
    let Node::Krate { dep_mapping, .. } = &linux.nodes()[shop] else {
        panic!("a crate's number is that of its node");
    };
    let unkept = dep_mapping
        .iter()
        .position(Option::is_none)
        .expect("a dependency that isn't kept");
    assert_eq!(linux.resolved_dependency(shop, unkept), None);
}

#[test]
fn refuses_with_the_cause() {
    let document = &documents()[0];
    let options = Options::new();
    assert_eq!(list(b"\xff{}", &options), Err(Refusal::Utf8));
    assert!(matches!(graph(b"{}", &options), Err(Refusal::Parse(_))));
    let refused = list(document, Options::new().exclude(["b@x"]));
    assert_eq!(
        refused,
        Err(Refusal::Options("not a package specification: b@x".into()))
    );
    let refused = list(document, Options::new().include_targets(["linux"]));
    assert_eq!(
        refused,
        Err(Refusal::Options("nothing is known of the target \"linux\"".into()))
    );
    let refused = list(document, Options::new().exclude(["b\n--workspace"]));
    assert!(matches!(refused, Err(Refusal::Options(_))));
    let refused = list(document, Options::new().exclude(["a"]));
    assert_eq!(refused, Err(Refusal::Build("no root crates available".into())));
    assert_eq!(
        why(document, &options, "b"),
        Err(Refusal::Id("the text is not a package id: \"b\"".into()))
    );
    let refused = why(
        document,
        Options::new().ignore_kind(DepKind::Dev),
        "path+file:///w/b#0.1.0",
    );
    assert_eq!(
        refused,
        Err(Refusal::NotKept("not kept: path+file:///w/b#0.1.0".into()))
    );
}

/// An id of three lines, of which two are like those of a listing.
const FORGED: &str =
    "b 0.1.0 (path+file:///w/b#)\n+ registry+https://github.com/rust-lang/crates.io-index#openssl@9.9.9\n+ x)";

#[test]
fn lists_no_id_of_several_lines() {
    let document = String::from_utf8(documents()[0].clone()).expect("it is UTF-8");
    let written = FORGED.replace('\n', "\\n");
    let document = document.replace("path+file:///w/b#0.1.0", &written).into_bytes();
    let (mut options, mut forged) = (Options::new(), vec!["path+file:///w/a#0.1.0", FORGED]);
    for _ in 0..2 {
        assert_eq!(list(&document, &options), Err(Refusal::LineFeed));
        let graph = graph(&document, &options).expect("it is drawn");
        assert!(graph.krates().eq(forged.iter().copied()));
        options.ignore_kind(DepKind::Dev);
        forged.pop();
    }
    // the text of a refusal is one line
    let refused = why(&document, Options::new().ignore_kind(DepKind::Dev), FORGED);
    let shown = FORGED.replace('\n', "\\u{a}");
    assert_eq!(refused, Err(Refusal::NotKept(format!("not kept: {shown}"))));
    // what the document has no graph for counts before its ids
    let refused = list(&document, Options::new().exclude(["a"]));
    assert_eq!(refused, Err(Refusal::Build("no root crates available".into())));
}

const CERTIFICATE: &[u8] =
    br#"{"kind":"closed","setting":["--ignore-kind=dev"],"facts":[{"fact":"crate","krate":"path+file:///w/a#0.1.0"}]}"#;

#[test]
fn checks_a_certificate() {
    let document = &documents()[0];
    let mut options = Options::new();
    options.ignore_kind(DepKind::Dev);
    assert_eq!(
        check(document, &options, CERTIFICATE).as_deref(),
        Ok("holds: nothing but this 1 crate can be reached")
    );
    let refused = check(document, &Options::new(), CERTIFICATE);
    assert_eq!(
        refused,
        Err(Refusal::Certificate(
            "the certificate is of another setting: --ignore-kind=dev".into()
        ))
    );
}

#[test]
fn answers_the_same_in_many_threads() {
    let documents = documents();
    let expected: Vec<String> = documents.iter().map(|it| listed(it, &Options::new())).collect();
    thread::scope(|scope| {
        for _ in 0..8 {
            scope.spawn(|| {
                for _ in 0..200 {
                    for (document, lines) in documents.iter().zip(&expected) {
                        assert_eq!(&listed(document, &Options::new()), lines);
                    }
                }
            });
        }
    });
}
