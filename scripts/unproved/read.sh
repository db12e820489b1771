#!/usr/bin/env bash
# Reads the crate in this folder and all below it without a proof, as `rt try` does, and keeps what that hands to clang.
#
#     ../../scripts/unproved/read.sh TEXT [--test]
#
# What is read is the file TEXT, a module in LLVM's language, cleaned by cleaned.sed; TEXT.words has the words that clang gets, a line for each. With
# --test it is the tests of the crate, otherwise its program. `rt` runs over links to the toolchain, which stays as it is, with those of stand_ins/ in
# place of two of its files. Prints what `rt` says if nothing was read; the status is 0 where TEXT was made.

set -euo pipefail
text=$(realpath -m "$1")
here=$(dirname "$(realpath "$0")")
kit=$(dirname "$(dirname "$(realpath "$(command -v rt)")")")

room=$(mktemp -d)
trying=
trap '[ -z "$trying" ] || kill "$trying" 2> /dev/null || true; wait; rm -rf "$room"' EXIT
own=$room/toolchain
mkdir "$own" "$room/tmp"
for it in "$kit"/*; do
    case ${it##*/} in
        bin | toolchain) cp -rs "$it" "$own" ;;
        *) ln -s "$it" "$own" ;;
    esac
done
# `rt` looks for its toolchain beside itself, after following links
cp --remove-destination "$kit"/bin/{rt,rtlib.py} "$own/bin"
cp --remove-destination "$here/stand_ins/checker" "$own/bin/rattle"
cp --remove-destination "$here/stand_ins/clang" "$own/toolchain/bin/clang"
declare -p text here kit own > "$own/settings"

rm -f "$text"
TMPDIR=$room/tmp "$own/bin/rt" try --steps 1 "${@:2}" < /dev/null > "$room/said" 2>&1 &
trying=$!
wait "$trying" || true
trying=
[ -f "$text" ] || { cat "$room/said" && exit 1; }
