#!/usr/bin/env bash
# Installs the programs `cargo krates`, krates_check and krates-list.
#
#     scripts/install.sh [--proved] [FOLDER]
#
#     FOLDER     where they are put: cargo's own folder, ~/.cargo/bin, if none is given
#     --proved   the proved ones that a gate or `rt run` left in this folder; if there are none, they are proved first, in an hour or more
#
# Without --proved they are compiled from the sources that the gate proves, and optimised, in three minutes. Nothing is proved then, and
# `cargo krates --version` says so. Nothing but the programs is left behind. It wants `rt`, the command of the Rattle toolchain.
#
# The status is 0 where all three are installed; otherwise none is, and it is 2 where a word is wrong or something is missing, else 1.

set -euo pipefail
. "$(dirname "$0")/words.sh"
programs=(cargo-krates krates_check krates-list)
# it takes as long as the others together, so they leave it their processors
largest=cargo-krates

compiled=yes
if [ "${1:-}" = --proved ]; then
    compiled=
    shift
fi
[ $# -le 1 ] || wrong_words "too many words: ${*:2}"
[[ ${1:-} != -* ]] || wrong_words "no such option: $1"
folder=$(realpath -m "${1:-${CARGO_HOME:-$HOME/.cargo}/bin}")
cd "$(dirname "$0")/.."
want rt

. scripts/unproved/jobs.sh
room=$(mktemp -d)
trap 'stop_jobs; rm -rf "$room"' EXIT

# Says what has been done, and how many seconds after the start.
step() {
    printf '%4d s  %s\n' "$SECONDS" "$*"
}

# Compiles these programs: what is below them is read once, and then each is compiled beside the others.
compile_together() {
    local own=$room/$1.own name running=() yielding scripts=$PWD/scripts/unproved
    mkdir -p "$own/copy"
    "$scripts/copy.sh" "$own/copy" --marked
    "$scripts/join.sh" programs "$own/copy" "${@//-/_}"
    env -C "$own/copy/crates/joined" "$scripts/read.sh" "$own/text" >&2
    for name; do
        step "$name: sources read"
        yielding=10
        [ "$name" != "$largest" ] || yielding=0
        {
            nice -n "$yielding" "$scripts/compile.sh" program "$own/text" "$room/$name" $((${#running[@]} + 1))
            step "$name: compiled"
        } &
        running+=($!)
    done
    for name in "${running[@]}"; do wait "$name"; done
}

# Compiles the programs. cargo-krates has most below it, and takes as long as the others together.
compile_all() {
    step "compiling ${programs[*]} side by side, unproved, which takes three minutes"
    begin compile_together cargo-krates
    begin compile_together krates_check krates-list
    end 0
    end 1
}

# Takes the proved programs that are here, and proves those that aren't.
prove_all() {
    local name crate left
    . scripts/release/gate.sh
    for name in "${programs[@]}"; do
        crate=${name//-/_}
        left=crates/$crate/out/$crate
        if gate_left "$left"; then
            step "$name: as the gate left it"
        else
            step "$name: proved where it has to be, which takes an hour or more the first time"
            # it says that it runs the program once this is proved and built
            (cd "crates/$crate" && rt run -- --version < /dev/null 2>&1 || true) | tee "$room/said" | grep '^logic=' || true
            grep -q '^rt: running ' "$room/said" || { cat "$room/said" >&2 && exit 1; }
        fi
        cp "$left" "$room/$name"
    done
}

if [ -n "$compiled" ]; then compile_all; else prove_all; fi
mkdir -p "$folder"
for name in "${programs[@]}"; do
    # a program that is running can't be written, but replaced
    install -m 755 "$room/$name" "$folder/.$name.new"
    mv "$folder/.$name.new" "$folder/$name"
done
step "installed in $folder: $("$folder/cargo-krates" krates --version), ${programs[*]:1}"
[[ :$PATH: == *":$folder:"* ]] || echo "put $folder on the path"
