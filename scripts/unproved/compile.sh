#!/usr/bin/env bash
# Compiles what read.sh has read of a crate that join.sh made.
#
#     scripts/unproved/compile.sh program TEXT FILE NUMBER
#     scripts/unproved/compile.sh archive TEXT FILE NAME..
#     scripts/unproved/compile.sh tried|tests TEXT FOLDER CRATE..
#
#     program    the program of this number, optimised
#     archive    a static library that exports the functions of these names, optimised
#     tried      a program for each of these crates, as they were joined: it is compiled once, without optimising, and linked for each
#     tests      the same for the tests of these crates, whose programs have the tests of all of them
#
# What is made is FILE, or CRATE.tried or CRATE.tests in FOLDER.

set -euo pipefail
kind=$1 text=$(realpath "$2") made=$(realpath -m "$3")
shift 3
kit=$(dirname "$(dirname "$(realpath "$(command -v rt)")")")
here=$(dirname "$(realpath "$0")")
. "$here/jobs.sh"
room=$(mktemp -d)
trap 'stop_jobs; rm -rf "$room"' EXIT
cd "$room"

# with less put in line than -O2 does, it takes a quarter less time, and the program a sixth more
optimised=(-O2 -mllvm -inline-threshold=50)
# what join.sh leaves to be written here: which program it is, and the test that stands for another
number='@"joined::number"()' stands='@"joined::metadata+run"()'

# Compiles a module's text, NAME.ll, by the words that `rt try` has for it and these options.
compile() {
    local words name=$1
    mapfile -t words < "$text.words"
    words=("${words[@]/#module.bc/$name.ll}")
    "$kit/toolchain/bin/clang" "${words[@]/#module.o/$name.o}" "${@:2}"
}

# Compiles a module's text, NAME.ll, optimised, as two halves side by side: NAME.0.o and NAME.1.o. That takes a fifth more in all, so programs, of
# which several are compiled at once, aren't cut.
compile_halves() {
    local half
    for half in 0 1; do awk -v half="$half" -f "$here/halves.awk" "$1.ll" > "$1.$half.ll"; done
    begin compile "$1.0" "${optimised[@]}"
    compile "$1.1" "${optimised[@]}"
    end 0
}

# Makes a program of these objects.
link_to() {
    "$kit/bin/rattle-link" --target x86_64-unknown-linux-gnu --toolchain "$kit/toolchain" -o "$1" "${@:2}" "$kit"/c/lib{os,libc}_c.a > said 2>&1 ||
        { cat said >&2 && exit 1; }
}

# The text without a function, which has to be there, and the tests of the name `metadata` seen from outside.
text_without() {
    grep -qF "call $1" "$text" || { echo "what $0 writes has no place: $1" >&2 && exit 1; }
    sed "/^define internal [^@]*$1/,/^}/d; s/^define internal \([^@]*@\"joined::\w*::metadata+run\)/define \1/" "$text"
}

# What a crate's own object has: which program it is, by its number, or its test of the name `metadata`, if it has one.
own_text() {
    local test
    sed -n '/^target /p' "$text"
    if [ "$kind" != tests ]; then
        echo "define i64 $number { ret i64 $2 }"
    elif test=$(grep -om 1 "@\"joined::$1::metadata+run[^\"]*\"()" "$text"); then
        printf '%s\n' "declare i32 $test" "define i32 $stands {" "  %status = call i32 $test" '  ret i32 %status' '}'
    else
        echo "define i32 $stands { ret i32 1 }"
    fi
}

# Makes the programs of these crates.
for_each_crate() {
    local missing="i64 $number" at=0 crate
    [ "$kind" != tests ] || missing="i32 $stands"
    { text_without "$missing" && echo "declare $missing"; } > all.ll
    compile all -O0
    for crate; do
        own_text "$crate" $((at += 1)) > own.ll
        compile own -O0
        link_to "$crate" all.o own.o
        mv "$crate" "$made/$crate.$kind"
    done
}

case $kind in
    program)
        { text_without "i64 $number" && echo "define internal i64 $number { ret i64 $1 }"; } > own.ll
        compile own "${optimised[@]}"
        link_to program own.o
        mv program "$made"
        ;;
    archive)
        # A static library exports functions by their own names. In a program they are internal, and the crate is in front of their names.
        names=$(IFS='|' && echo "$*")
        sed -E "s/@\"joined::($names)\"/@\1/g; /^define internal .*@($names)\(/s/internal //
            s/^define (i32 @main\()/define internal \1/" "$text" > own.ll
        compile_halves own
        "$kit/toolchain/bin/llvm-ar" rcs "$made" own.0.o own.1.o
        ;;
    tried | tests) for_each_crate "$@" ;;
esac
