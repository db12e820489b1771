//! Refuses each request for memory of a call in turn: it has to end as `Memory`. The library's own requests aren't among them, which
//! `bindings/c/refused_requests.c` refuses.

use krates_proved::{DepKind, Graph, Options, Refusal, check, graph, list, why};
use std::alloc::{GlobalAlloc, Layout, System};
use std::cell::Cell;
use std::fmt::Debug;
use std::path::Path;
use std::{fs, ptr};

/// How many requests of this thread are granted yet, and whether all others are refused, or only the next one.
#[derive(Clone, Copy)]
struct Budget {
    left: usize,
    is_last: bool,
}

const AMPLE: Budget = Budget {
    left: usize::MAX,
    is_last: true,
};

thread_local! {
    static BUDGET: Cell<Budget> = const { Cell::new(AMPLE) };
    static REFUSED: Cell<usize> = const { Cell::new(0) };
}

struct Scarce;

impl Scarce {
    /// Whether the next request is granted.
    fn grants() -> bool {
        let budget = BUDGET.get();
        if budget.left > 0 {
            BUDGET.set(Budget {
                left: budget.left - 1,
                ..budget
            });
            return true;
        }
        if !budget.is_last {
            BUDGET.set(AMPLE);
        }
        REFUSED.set(REFUSED.get() + 1);
        false
    }
}

// SAFETY: each block is one of `System`, which it goes back to; a null pointer says that there is none.
unsafe impl GlobalAlloc for Scarce {
    unsafe fn alloc(&self, layout: Layout) -> *mut u8 {
        match Scarce::grants() {
            // SAFETY: what the caller owes is the same.
            true => unsafe { System.alloc(layout) },
            false => ptr::null_mut(),
        }
    }

    unsafe fn realloc(&self, block: *mut u8, layout: Layout, size: usize) -> *mut u8 {
        match Scarce::grants() {
            // SAFETY: as in `alloc`.
            true => unsafe { System.realloc(block, layout, size) },
            false => ptr::null_mut(),
        }
    }

    unsafe fn dealloc(&self, block: *mut u8, layout: Layout) {
        // SAFETY: as in `alloc`.
        unsafe { System.dealloc(block, layout) }
    }
}

#[global_allocator]
static SCARCE: Scarce = Scarce;

/// Makes a call with each of its requests refused, that one alone and all from that one on, and returns how many there are.
fn starved<T: PartialEq + Debug>(call: impl Fn() -> Result<T, Refusal>) -> usize {
    let ample = call();
    assert_ne!(ample, Err(Refusal::Memory));
    for left in 0.. {
        for is_last in [false, true] {
            REFUSED.set(0);
            BUDGET.set(Budget { left, is_last });
            let told = call();
            BUDGET.set(AMPLE);
            if REFUSED.get() == 0 {
                assert_eq!(told, ample);
                return left;
            }
            assert_eq!(told, Err(Refusal::Memory), "request {left}");
        }
    }
    unreachable!()
}

fn document(name: &str) -> Vec<u8> {
    let top = Path::new(env!("CARGO_MANIFEST_DIR")).join("../..");
    fs::read(top.join(name)).expect("the document is there")
}

/// What asks for memory of a graph.
fn asked(graph: &Graph) -> usize {
    let number = graph.len() - 1;
    starved(|| graph.direct_dependencies(0)) + starved(|| graph.direct_dependents(number))
}

#[test]
fn each_refused_request_is_told() {
    let mut options = Options::new();
    options
        .workspace(true)
        .ignore_kind(DepKind::Build)
        .exclude(["b@1.0.0", "c"])
        .include_targets(["x86_64-unknown-linux-gnu"]);
    let mut requests = 0;
    for name in ["crates/krates_list/stdin", "scripts/documents/rooted/metadata.json"] {
        let document = document(name);
        let listing = list(&document, &options).expect("it is listed");
        let kept = listing.kept().last().expect("one is kept");
        requests += starved(|| list(&document, &options));
        requests += starved(|| graph(&document, &options));
        requests += starved(|| why(&document, &options, kept));
        requests += starved(|| why(&document, &options, "path+file:///w/z#0.1.0"));
        requests += starved(|| check(&document, &options, b"{}"));
        requests += asked(&graph(&document, &options).expect("it is drawn"));
    }
    requests += starved(|| list(b"\xff", &options));
    requests += starved(|| why(b"{}", &options, "b"));
    for (exclusion, target) in [("b@x", "wasm32-unknown-unknown"), ("b\nc", "linux"), ("b", "linux")] {
        let mut wrong = Options::new();
        wrong.exclude([exclusion, "c"]).include_targets([target]);
        requests += starved(|| list(b"{}", &wrong));
    }
    assert!(requests > 100, "{requests}");
}
