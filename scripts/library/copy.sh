#!/usr/bin/env bash
# Copies the library into a repository of your own: the crate `krates` and all crates that it needs.
#
# Its word is FOLDER, the top of that repository; it is made if it doesn't exist. Each crate's src/, specs/ and proofs/ go to FOLDER/crates, in place
# of what is there under its name; so do their lines in FOLDER/crates.txt. HANDLES is copied where there is none,
# and the licences go beside the crates, as crates/krates/LICENSE-MIT and LICENSE-APACHE. Names each crate that it copies.

set -euo pipefail
mkdir -p "$1"
target=$(cd "$1" && pwd)
cd "$(dirname "$0")/../.."

. scripts/crates_below.sh
mapfile -t found < <(crates_below krates)

touch "$target/crates.txt"
for name in "${found[@]}"; do
    rm -rf "$target/crates/$name"
    for part in src specs proofs; do
        [ -d "crates/$name/$part" ] || continue
        mkdir -p "$target/crates/$name"
        cp -r "crates/$name/$part" "$target/crates/$name/$part"
    done
    sed -i "/^$name:/d" "$target/crates.txt"
    grep "^$name:" crates.txt >> "$target/crates.txt"
    echo "$name"
done
[ -f "$target/HANDLES" ] || cp HANDLES "$target/HANDLES"
cp LICENSE-MIT LICENSE-APACHE "$target/crates/krates/"
