#!/usr/bin/env bash
# Runs the tests of the crate in this folder without a proof, and the program that it is.
#
#     ../../scripts/try_tests/crate.sh [FOLDER]
#
# They are taken from FOLDER, where kept.sh has compiled them; without a folder they are compiled first, and not kept. The program is run on its
# stdin with its args beside the files of data/, and has to write its stdout and to end with status 0. Each runs without an environment.
#
# Prints a line for each test, which ends in `ok` or `FAILED`, and what it said if it failed; the program is a test by the name of the crate. Before
# or in place of these lines comes why something can't be run.

set -euo pipefail
here=$(dirname "$(realpath "$0")")
kit=$(dirname "$(dirname "$(realpath "$(command -v rt)")")")
crate=$(basename "$PWD")
room=$(mktemp -d)
trap 'rm -rf "$room"' EXIT
folder=$(realpath -m "${1:-$room}") how=(--no-compiling)
[ -n "${1:-}" ] || how=()
# a test that fails on purpose leaves no picture of its memory
ulimit -c 0

# Runs the program, and reports it as a test is reported.
try_program() {
    local words=() status=0 program=$1
    [ ! -f args ] || mapfile -t words < args
    mkdir "$room/data"
    if [ -d data ]; then cp -r data/. "$room/data"; fi
    cp "$([ -f stdin ] && echo stdin || echo /dev/null)" "$room/in"
    cp "$([ -f stdout ] && echo stdout || echo /dev/null)" "$room/wanted"
    (cd "$room/data" && env -i timeout 120 "$program" "${words[@]}" < "$room/in" > "$room/out" 2> "$room/err") || status=$?
    if [ "$status" -eq 0 ] && cmp -s "$room/out" "$room/wanted"; then
        echo "test $crate ... ok"
    else
        echo "test $crate ... FAILED"
        echo "its status is $status"
        diff "$room/out" "$room/wanted" | head -5 || true
        tail -3 "$room/err"
    fi
}

# Whether what is of this kind is there, compiled of these sources; says otherwise why not.
is_there() {
    (cd ../.. && "$here/kept.sh" "$1" "$folder" "${how[@]}" "$crate")
}

if [ -f src/main.rt ] && is_there tried; then try_program "$folder/$crate.tried"; fi
if grep -rqE '^ *#\[test\]' src --include=*.rt && is_there tests; then
    cd "$room"
    # the crate's name is in front of its tests, and of its files, since it was joined to others
    env -i "$kit/bin/rattle-test" --seconds 60 --filter "$crate::" "$folder/$crate.tests" 2>&1 |
        sed "s/\b$crate:://g; s#\bsrc/$crate/#src/#g; s#\bsrc/$crate\.rt#src/lib.rt#g" || true
fi
