#!/usr/bin/env bash
# Makes a program that scripts/compare.py asks, in two minutes.
#
#     scripts/compare/program.sh NAME FILE
#
# NAME is the folder beside this script that has its sources. It is compiled from the sources that the gate proves, and optimised, but nothing is
# proved: it only writes what these answer. Its own sources end in .rt.txt, since `rt` wants each file that ends in .rt to be of a crate that the gate
# proves, and needs.txt has its line of crates.txt. The status is 0 where FILE was made.

set -euo pipefail
name=$1 program=$(realpath -m "$2")
cd "$(dirname "$0")/../.."
. scripts/words.sh
want rt
. scripts/unproved/jobs.sh
room=$(mktemp -d)
trap 'stop_jobs; rm -rf "$room"' EXIT

mkdir "$room/copy"
scripts/unproved/copy.sh "$room/copy"
mkdir -p "$room/copy/crates/$name/src"
for source in "scripts/compare/$name"/*.rt.txt; do
    cp "$source" "$room/copy/crates/$name/src/$(basename "$source" .txt)"
done
cat "scripts/compare/$name/needs.txt" >> "$room/copy/crates.txt"
scripts/unproved/join.sh programs "$room/copy" "$name"
begin env -C "$room/copy/crates/joined" "$PWD/scripts/unproved/read.sh" "$room/text" >&2
end 0
begin scripts/unproved/compile.sh program "$room/text" "$room/program" 1
end 1
mv "$room/program" "$program"
