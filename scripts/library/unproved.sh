#!/usr/bin/env bash
# Makes the static library that Rust and C call without proving it, in two minutes, and asks it from C once.
#
# The archive and the toolchain's functions for memory come to bindings/out, in place of what is there. They are compiled from the sources that the
# gate proves, and optimised, but nothing is proved. It wants gcc. The status is 0 where all of it went well.

set -euo pipefail
cd "$(dirname "$0")/../.."
kit=$(dirname "$(dirname "$(realpath "$(command -v rt)")")")
out=$PWD/bindings/out
. scripts/unproved/jobs.sh
room=$(mktemp -d)
trap 'stop_jobs; rm -rf "$room"' EXIT

echo "compiling the static library, unproved, which takes two minutes"
mkdir -p "$out" "$room/copy"
scripts/unproved/copy.sh "$room/copy" --marked
scripts/unproved/join.sh library "$room/copy" krates_c
begin env -C "$room/copy/crates/joined" "$PWD/scripts/unproved/read.sh" "$room/text" >&2
end 0
mapfile -t names < <(sed -n 's/^pub extern "C" fn \(\w*\)(.*/\1/p' crates/krates_c/src/*.rt)
begin scripts/unproved/compile.sh archive "$room/text" "$room/libkrates_c.a" "${names[@]}"
end 1
mv "$room/libkrates_c.a" "$out"
cp "$kit/c/liblibc_c.a" "$out"
echo "bindings/out/libkrates_c.a: $(stat -c %s "$out/libkrates_c.a") bytes, not proved on this machine"

gcc -std=c11 -Wall -Wextra -Werror -O1 bindings/c/example.c "$out/libkrates_c.a" "$out/liblibc_c.a" -o "$out/example"
"$out/example" < examples/document.json > "$room/listed"
echo "bindings/out/example, which calls it from C, lists $(wc -l < "$room/listed") packages of examples/document.json"
