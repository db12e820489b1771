#!/usr/bin/env bash
# Joins crates in a copy of the sources that copy.sh has made, so that everything below them is read once: writes the crate `joined`.
#
#     scripts/unproved/join.sh KIND FOLDER CRATE..
#
#     programs   a program that is all of these, the one of the number that a function gives; the first has the number 1
#     tests      the tests of these crates, each under its crate's name, and a test `metadata` that stands for the one of a crate: by that word,
#                cargo's first, some tests run their own program in cargo's place
#     library    a program that calls all that the static library exports, which is this crate
#
# compile.sh makes of it what each crate is by itself: it writes the number, or which test is meant, into what was read.

set -euo pipefail
kind=$1
cd "$2"
shift 2
crates=("$@")
mkdir -p crates/joined/src

# Makes of each program a library with a public function, and calls one of these.
join_programs() {
    local crate calls= number=0
    for crate in "${crates[@]}"; do
        mv "crates/$crate/src/main.rt" "crates/$crate/src/lib.rt"
        sed -i 's/^fn main(/pub fn as_program(/' "crates/$crate/src/lib.rt"
        calls+="        $((number += 1)) => "
        if grep -q '^pub fn as_program(.*-> ExitCode' "crates/$crate/src/lib.rt"; then
            calls+="Ok($crate::as_program(rt)),"$'\n'
        else
            calls+="$crate::as_program(rt).map(|()| ExitCode::SUCCESS),"$'\n'
        fi
    done
    echo "joined: ${crates[*]} anyhow" >> crates.txt
    cat > crates/joined/src/main.rt <<FILE
//! One of several programs.
#![tactic(auto)]

use std::process::ExitCode;

/// Which it is.
fn number() -> u64 {
    0
}

/// Does what that program does.
fn main(rt: HostRuntime) -> Result<ExitCode, anyhow::Error> {
    match number() {
$calls        _ => Ok(ExitCode::FAILURE),
    }
}
FILE
}

# Makes of each crate of tests a module. Every line keeps its place, which is named where a test fails.
join_tests() {
    local crate needed=() below
    {
        echo '//! The tests of several crates.'
        echo '#![tactic(auto)]'
        printf '#[cfg(test)]\nmod %s;\n' "${crates[@]}"
        printf '#[cfg(test)]\n#[test]\nfn metadata() -> Result<(), std::test::Fail> {\n    Ok(())\n}\n'
    } > crates/joined/src/lib.rt
    for crate in "${crates[@]}"; do
        cp -r "crates/$crate/src" "crates/joined/src/$crate"
        find "crates/joined/src/$crate" -name '*.rt' -exec sed -i "s/\bcrate::/crate::$crate::/g; s/^#!\[tactic(auto)\]$//" {} +
        mv "crates/joined/src/$crate/lib.rt" "crates/joined/src/$crate.rt"
        read -ra below <<< "$(sed -n "s/^$crate://p" crates.txt)"
        needed+=("${below[@]}")
    done
    echo "joined: $(printf '%s\n' "${needed[@]}" | sort -u | tr '\n' ' ')" >> crates.txt
}

# Gives the static library a `main`, which hands each function what it takes.
join_library() {
    local calls
    calls=$(sed -n '/^pub extern "C" fn/,/^)/p' "crates/${crates[0]}/src/lib.rt" | sed '
        s/^pub extern "C" fn \(.*\)(/    let _answer = \1(/
        s/^ *\w*: Global,/        rt.alloc(),/
        s/^ *\w*: &\[u8\],/        \&bytes,/
        s/^ *\w*: &mut \[u8\],/        \&mut room,/
        s/^) -> Answer/    );/')
    cp -r "crates/${crates[0]}/src" crates/joined
    mv crates/joined/src/{lib,main}.rt
    sed -n "s/^${crates[0]} staticlib:/joined:/p" crates.txt >> crates.txt
    cat >> crates/joined/src/main.rt <<FILE

fn main(rt: HostRuntime) {
    let (bytes, mut room) = ([0u8; 1], [0u8; 1]);
$calls
}
FILE
}

"join_$kind"
