#!/usr/bin/env bash
# Runs the tests and the programs without a proof: in minutes, what the gate proves first and runs in an hour or two.
#
#     scripts/try_tests.sh [CRATE..]
#
# Without a name: those of all crates. First the tests of all crates are compiled as one, and beside them all programs as one, since most of the
# time goes into reading the crates below. This is kept in out/tried, so that a crate isn't compiled again while it and those below it, the
# toolchain and these scripts are as they were. Then each crate is run by scripts/try_tests/crate.sh, as many side by side as there are processors.
# What runs stops where a sum wraps, or a call breaks a `requires` that can be seen. Accesses to memory aren't checked, as `rt try` checks them: that
# takes twice the time, and isn't possible where a test starts its own program with little memory.
#
# Prints a line as each crate ends: how many of its tests passed and failed, how many weren't run, and the seconds since the start; above it what those
# said that failed, or why not all were run; a program is one test. The last line is of all crates. The status is 0 where all were run and passed,
# and there was one, 2 where a word is wrong or `rt` isn't there, and 1 otherwise.

set -euo pipefail
cd "$(dirname "$0")/.."
. scripts/words.sh
. scripts/unproved/jobs.sh
want rt
trap stop_jobs EXIT

# Prints how many tests a crate has; its program is one.
count() {
    local tests
    tests=$(grep -rsE '^ *#\[test\]' "crates/$1/src" --include=*.rt | wc -l)
    [ ! -f "crates/$1/src/main.rt" ] || tests=$((tests + 1))
    echo "$tests"
}

# The crates that have some, those of the most tests first.
crates=("$@")
if [ ${#crates[@]} -eq 0 ]; then
    mapfile -t crates < <(for it in crates/*; do echo "$(count "${it#*/}") ${it#*/}"; done | sort -rn | sed '/^0 /d; s/.* //')
fi
tested=() programs=()
for crate in "${crates[@]}"; do
    if [ "$(count "$crate")" -eq 0 ]; then
        echo "$crate: there is no such crate, or it has no tests and is no program" >&2
        exit 2
    fi
    [ ! -f "crates/$crate/src/main.rt" ] || programs+=("$crate")
    ! grep -rqE '^ *#\[test\]' "crates/$crate/src" --include=*.rt || tested+=("$crate")
done

# Prints what is to be said of a crate's tests, of which there are so many: the words are the crate, their count and the seconds.
judge() {
    awk -v crate="$1" -v wanted="$2" -v seconds="$3" '
        function ended() {
            if (name != "") { failed++; print crate ": " said }
            name = ""
        }
        { all = all $0 "\n" }
        /^test .* \.\.\. / { ended(); if (/ok$/) passed++; else { name = $2; said = $0 }; next }
        /^test result: / { ended(); next }
        name != "" { said = said "\n" $0 }
        END {
            ended()
            if (passed + failed < wanted) printf "%s: not all run\n%s", crate, all
            printf "%s: %d passed, %d failed, %d not run (%d s)\n", crate, passed, failed, wanted - passed - failed, seconds
        }
    '
}

# Runs those of a crate.
try_one() {
    local told
    told=$(cd "crates/$1" && ../../scripts/try_tests/crate.sh "$kept" 2>&1) || true
    # what is said of one crate stays together
    judge "$1" "$(count "$1")" $(($(date +%s) - began)) <<< "$told" | flock "$kept" cat
}

# Compiles those of a kind of these crates together, and says when that is done, or why it can't be.
compile() {
    [ $# -gt 1 ] || return 0
    if scripts/try_tests/kept.sh "$1" "$kept" "${@:2}"; then
        echo "compiled, or kept: ${*:2} ($(($(date +%s) - began)) s)"
    else
        echo "not compiled: ${*:2}"
    fi
}
export -f count judge try_one
began=$(date +%s) kept=$PWD/out/tried
export began kept
mkdir -p "$kept"
echo "crates to try: ${#crates[@]}, in minutes where they are compiled first"
begin compile tests "${tested[@]}"
begin compile tried "${programs[@]}"
end 0
end 1

printf '%s\n' "${crates[@]}" | xargs -P "$(nproc)" -I{} bash -c 'try_one "$1"' _ {} | awk -v crates="${#crates[@]}" '
    { print; fflush() }
    / passed, .* failed, .* not run \([0-9]* s\)$/ { crates--; passed += $2; failed += $4; left += $6 }
    END {
        printf "%d passed, %d failed, %d not run\n", passed, failed, left
        exit crates || failed || left || !passed
    }
'
