#!/usr/bin/env bash
# Packs what a gate proved here: the programs, the static library with its header, their checksums, and the line of the gate.
#
#     scripts/release.sh [FOLDER]
#
# Run it behind `.ci/run`, in the same folder. The archive comes to FOLDER, or out/. It has a folder of its own name, in which SHA256SUMS has the
# sums of all files, and GATE what the gate left on record: its last line, the commit, the toolchain and the sum of the sources. The same
# files make the same archive.
#
# The status is 0 where it is made; 1 where no gate passed here, or something has changed since: the commit, a file, the toolchain, a program or the
# library; and 2 where a word is wrong or something is missing.

set -euo pipefail
. "$(dirname "$0")/words.sh"
[ $# -le 1 ] || wrong_words "too many words: ${*:2}"
[[ ${1:-} != -* ]] || wrong_words "no such option: $1"
folder=$(realpath -m "${1:-$(dirname "$0")/../out}")
want rt git
cd "$(dirname "$0")/.."
. scripts/release/gate.sh

# Says why nothing is packed.
refuse() {
    echo "nothing is packed: $1" >&2
    exit 1
}

[ -f "$gate" ] || refuse "no gate has passed in this folder: run .ci/run"
[ "$(gate_says commit)" = "$(git rev-parse HEAD)" ] || refuse "the gate passed another commit, $(gate_says commit)"
[ -z "$(git status --porcelain)" ] || refuse "files have changed since the commit: $(git status --porcelain | head -n 3 | xargs)"
[ "$(gate_says toolchain)" = "$(rt version)" ] || refuse "the gate ran by another toolchain, $(gate_says toolchain)"
for file in "${gate_leaves[@]}"; do
    gate_left "$file" || refuse "$file isn't as the gate left it"
done

version=$(sed -n 's/^version = "\(.*\)"$/\1/p' bindings/rust/Cargo.toml)
name=krates-$version-x86_64-linux
room=$(mktemp -d)
trap 'rm -rf "$room"' EXIT
packed=$room/$name
mkdir -p "$packed"/{bin,lib,include}
install -m 755 crates/cargo_krates/out/cargo_krates "$packed/bin/cargo-krates"
install -m 755 crates/krates_check/out/krates_check "$packed/bin/krates_check"
install -m 755 crates/krates_list/out/krates_list "$packed/bin/krates-list"
install -m 644 bindings/out/{libkrates_c.a,liblibc_c.a} "$packed/lib"
install -m 644 bindings/c/krates.h "$packed/include"
install -m 644 LICENSE-MIT LICENSE-APACHE "$packed"
grep -vE '^[0-9a-f]{64} ' "$gate" > "$packed/GATE"
(cd "$packed" && find . -type f ! -name SHA256SUMS -printf '%P\n' | LC_ALL=C sort | xargs sha256sum > SHA256SUMS)

mkdir -p "$folder"
same=(--sort=name --mode=u=rwX,go=rX --owner=0 --group=0 --numeric-owner --mtime="@$(git log -1 --format=%ct)")
tar -C "$room" "${same[@]}" -cf - "$name" | gzip -n > "$room/archive"
mv "$room/archive" "$folder/$name.tar.gz"
echo "$folder/$name.tar.gz: $(gate_says line)"
sha256sum "$folder/$name.tar.gz"
