#!/usr/bin/env bash
# Compiles crates without a proof, together, but for those that are kept, of the same sources; of the repository in this folder.
#
#     scripts/try_tests/kept.sh KIND FOLDER [--no-compiling] CRATE..
#
# KIND is `tests`, or `tried` for programs. What is compiled of a crate is CRATE.KIND in FOLDER. Prints why there is none, with status 1.

set -euo pipefail
kind=$1 folder=$(realpath -m "$2") may_compile=yes
shift 2
if [ "$1" = --no-compiling ]; then
    may_compile=
    shift
fi
scripts=$(dirname "$(dirname "$(realpath "$0")")")
. "$scripts/crates_below.sh"
. "$scripts/unproved/jobs.sh"

# A sum of what a crate is compiled of: the toolchain, the scripts, and the sources of the crate and of those below it.
sum_of() {
    local crates sources it
    mapfile -t crates < <(crates_below "$1")
    mapfile -t sources < <(printf 'crates/%s/src\n' "${crates[@]}")
    {
        echo "$toolchain"
        for it in "${crates[@]}"; do grep -E "^$it( |:)" crates.txt; done
        cat "$scripts"/unproved/{*.*,stand_ins/*}
        find "${sources[@]}" -type f -print0 | LC_ALL=C sort -z | xargs -0 sha256sum
    } | sha256sum
}

# Names the files of these crates as they are here, and not where they were joined.
named_as_here() {
    local names
    names=$(IFS='|' && echo "$*")
    if [ "$kind" = tests ]; then
        sed -E "s#$room/copy/##g; s#\bsrc/($names)/#crates/\1/src/#g; s#\bsrc/($names)\.rt#crates/\1/src/lib.rt#g"
    else
        sed -E "s#$room/copy/##g; s#(crates/($names)/src)/lib\.rt#\1/main.rt#g"
    fi
}

# Compiles these crates.
compile() {
    local test=() joined=programs
    [ "$kind" != tests ] || test=(--test) joined=tests
    room=$(mktemp -d)
    trap 'stop_jobs; rm -rf "$room"' EXIT
    mkdir "$room/copy"
    "$scripts/unproved/copy.sh" "$room/copy"
    "$scripts/unproved/join.sh" "$joined" "$room/copy" "$@"
    begin env -C "$room/copy/crates/joined" "$scripts/unproved/read.sh" "$room/text" "${test[@]}" > "$room/said" 2>&1
    end 0 || { named_as_here "$@" < "$room/said" && exit 1; }
    begin "$scripts/unproved/compile.sh" "$kind" "$room/text" "$folder" "$@" 2>&1
    end 1
}

toolchain=$(rt version)
mkdir -p "$folder"
declare -A sums
others=()
for crate; do
    [ -z "${sums[$crate]:-}" ] || continue
    sums[$crate]=$(sum_of "$crate")
    [ "$(cat "$folder/$crate.$kind.sum" 2> /dev/null)" = "${sums[$crate]}" ] || others+=("$crate")
done
if [ ${#others[@]} -gt 0 ]; then
    if [ -z "$may_compile" ]; then
        printf '%s: compiled of other sources, or not at all\n' "${others[@]}"
        exit 1
    fi
    for crate in "${others[@]}"; do rm -f "$folder/$crate.$kind" "$folder/$crate.$kind.sum"; done
    compile "${others[@]}"
    for crate in "${others[@]}"; do echo "${sums[$crate]}" > "$folder/$crate.$kind.sum"; done
fi
