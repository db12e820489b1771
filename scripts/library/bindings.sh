#!/usr/bin/env bash
# Makes the static library that Rust and C call, and tries it from both. Run it behind `rt ci`, in the same folder: it takes the libraries and the
# program that the gate left there.
#
# The archive of crates/krates_c and the toolchain's functions for memory come to bindings/out. Then come the tests of bindings/rust, without a network,
# beside the program krates-list; the example in C; each call on a thread with no more stack than it may need, and with its requests for memory
# refused; and COUNT damaged documents, its word (30,000, a minute or two). C is compiled with the address sanitizer, but where the stack is measured.
#
# It wants cargo and gcc. The status is 0 where all of it went well.

set -euo pipefail
cd "$(dirname "$0")/../.."
count=${1:-30000}
kit=$(dirname "$(dirname "$(realpath "$(command -v rt)")")")
out=$PWD/bindings/out
export KRATES_LIST=$PWD/crates/krates_list/out/krates_list
if [ ! -x "$KRATES_LIST" ]; then
    echo "crates/krates_list isn't built here: run rt ci first" >&2
    exit 2
fi

mkdir -p "$out"
scripts/check.py over-gate krates_c --archive "$out/libkrates_c.a" > "$out/archive.log" 2>&1 || {
    cat "$out/archive.log" >&2
    exit 1
}
cp "$kit/c/liblibc_c.a" "$out"
echo "bindings/out/libkrates_c.a: $(stat -c %s "$out/libkrates_c.a") bytes"

(cd bindings/rust && cargo test --offline --quiet)
cargo metadata --format-version 1 --offline --locked --manifest-path bindings/rust/tests/workspace/Cargo.toml > "$out/workspace.json"
# ids with a commit, which is no part of what they name: a damaged certificate may have another
sed 's|path+file:///w/\([a-z]\)#0.1.0|\1 0.1.0 (git+https://example.org/\1#0123456789abcdef0123456789abcdef01234567)|g' crates/krates_list/stdin > "$out/commits.json"
# the same with what a verdict shows by its number, with what reads as such a number, and with a letter beyond ASCII
sed 's|#0123456789abcdef[0-9a-f]*|#\\n\\u001b[2K\\u202e\\\\u{1b}\\u00e9|g' "$out/commits.json" > "$out/shown.json"
documents=(crates/krates_list/stdin crates/krates_check/data/document.json "$out/commits.json" "$out/shown.json" "$out/workspace.json"
    scripts/documents/*/metadata.json)

# Compiles a program of bindings/c with these files and words.
compile() {
    local name=$1
    shift
    gcc -std=c11 -Wall -Wextra -Werror -O1 -g "bindings/c/$name.c" "$@" -o "$out/$name"
}

sanitized=(-fsanitize=address,undefined)
archives=("$out/libkrates_c.a" "$out/liblibc_c.a")
compile example "${sanitized[@]}" "${archives[@]}"
compile little_stack bindings/c/trials.c "${archives[@]}" -pthread
compile damaged_documents "${sanitized[@]}" bindings/c/trials.c "${archives[@]}"
# it has the functions for memory itself
compile refused_requests "${sanitized[@]}" bindings/c/trials.c "$out/libkrates_c.a"
for document in "${documents[@]}"; do
    cmp <("$out/example" < "$document") <("$KRATES_LIST" --ignore-kind dev < "$document")
done
"$out/little_stack" crates/krates_check/data/document.json
"$out/refused_requests" "${documents[@]}"
"$out/damaged_documents" "$count" 1 "${documents[@]}"
