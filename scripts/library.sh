#!/usr/bin/env bash
# Hands the library on: its sources to another repository, or its calls to Rust and C.
#
#     scripts/library.sh copy FOLDER
#     scripts/library.sh bindings [COUNT]
#     scripts/library.sh bindings --unproved
#
#     copy       copies the crate `krates` and all crates that it needs into a repository of your own, whose top is FOLDER
#     bindings   makes the static library that Rust and C call, and tries it from both, at the end with COUNT damaged documents,
#                30,000 where none is given; run it behind `rt ci`, in the same folder. With --unproved it is only compiled, in two minutes
#
# The file of the word, in scripts/library, says more. The status is 0 where all of it went well, and 2 where a word is wrong,
# or something is missing: a program that it wants, or what the gate leaves.

set -euo pipefail

. "$(dirname "$0")/words.sh"
here=$(dirname "$0")/library
word=${1:-}
case $word in
    copy)
        [ $# -eq 2 ] || wrong_words "one folder is wanted"
        exec "$here/copy.sh" "$2"
        ;;
    bindings)
        [[ $# -eq 1 || ($# -eq 2 && $2 =~ ^([0-9]+|--unproved)$) ]] || wrong_words "too many words, or no count: ${*:2}"
        want rt gcc
        [ "${2:-}" != --unproved ] || exec "$here/unproved.sh"
        want cargo
        exec "$here/bindings.sh" "${@:2}"
        ;;
    "") wrong_words "a word is missing" ;;
    *) wrong_words "no such word: $word" ;;
esac
