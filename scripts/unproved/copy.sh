#!/usr/bin/env bash
# Copies the sources that a compiler reads, of all crates of the repository in this folder.
#
#     scripts/unproved/copy.sh FOLDER [--marked]
#
# With --marked, what is compiled of the copy says so: `--version` adds that nothing was proved.

set -euo pipefail
target=$(realpath "$1")

cp crates.txt HANDLES "$target"
for source in crates/*/src; do
    mkdir -p "$target/${source%/src}"
    cp -r "$source" "$target/${source%/src}"
done
if [ "${2:-}" = --marked ]; then
    words=crates/krates_words/src/command.rt
    sed -i '/^pub(crate) static VERSION/s/";$/ (not proved on this machine)";/' "$target/$words"
    ! cmp -s "$words" "$target/$words" || { echo "$words: the version that $0 marks isn't there" >&2 && exit 1; }
fi
