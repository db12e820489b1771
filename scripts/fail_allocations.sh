#!/usr/bin/env bash
# Runs krates-list once for each request for memory that it makes, with that request refused, and looks at how it is answered.
#
#     scripts/fail_allocations.sh [DOCUMENT [OPTION..]]
#
# The document is crates/krates_list/stdin where none is given; options go to the program. Each run has to end with status 1,
# nothing listed and the line 'refused: out of memory', or as the run with ample memory does. A run that ends otherwise is reported,
# by the number of the request. The last line says how many requests there were, and how the runs ended; the status is 0 where
# all of them ended as they have to, and 1 otherwise.
#
# The program is crates/krates_list/out/krates_list, which `rt run` in that folder builds, or $KRATES_LIST. A small library that
# is loaded before the C library refuses the request, since `rt try --fail-alloc` takes one number, and proves and builds anew for
# each; so a C compiler is needed, $CC or cc.

set -euo pipefail
cd "$(dirname "$0")/.."

document=${1:-crates/krates_list/stdin}
shift $(($# > 0))
program=${KRATES_LIST:-crates/krates_list/out/krates_list}
if [ ! -x "$program" ] || [ ! -f "$document" ]; then
    echo "there is no document, or no program: run 'rt run < stdin' in crates/krates_list" >&2
    exit 2
fi

room=$(mktemp -d)
trap 'rm -rf "$room"' EXIT

cat > "$room/refusing.c" <<'C'
#define _GNU_SOURCE
#include <dlfcn.h>
#include <stdio.h>
#include <stdlib.h>

/* Requests are counted; the one of the number REFUSED is refused. At the end their count is written to the file COUNTED. */
static void *(*real_malloc)(size_t);
static void *(*real_realloc)(void *, size_t);
static unsigned long requests, refused;
static const char *counted;

__attribute__((constructor)) static void begin(void) {
    const char *number = getenv("REFUSED");
    real_malloc = dlsym(RTLD_NEXT, "malloc");
    real_realloc = dlsym(RTLD_NEXT, "realloc");
    counted = getenv("COUNTED");
    refused = number ? strtoul(number, 0, 10) : 0;
    requests = 0;
    /* a program that this one runs has all its memory */
    unsetenv("LD_PRELOAD");
}

__attribute__((destructor)) static void end(void) {
    unsigned long all = requests;
    FILE *file;
    refused = 0;
    if (counted && (file = fopen(counted, "w"))) {
        fprintf(file, "%lu\n", all);
        fclose(file);
    }
}

void *malloc(size_t size) {
    if (!real_malloc) real_malloc = dlsym(RTLD_NEXT, "malloc");
    return ++requests == refused ? 0 : real_malloc(size);
}

void *realloc(void *block, size_t size) {
    if (!real_realloc) real_realloc = dlsym(RTLD_NEXT, "realloc");
    return ++requests == refused ? 0 : real_realloc(block, size);
}
C
"${CC:-cc}" -O1 -shared -fPIC -o "$room/refusing.so" "$room/refusing.c" -ldl

# One run with the request of this number refused, 0 for none. Returns its status.
run() {
    local status=0
    REFUSED=$1 COUNTED=$2 LD_PRELOAD=$room/refusing.so "$program" "${@:3}" \
        < "$document" > "$room/lines" 2> "$room/told" || status=$?
    echo "$status"
}

ample=$(run 0 "$room/count" "$@")
cp "$room/lines" "$room/ample_lines"
cp "$room/told" "$room/ample_told"
requests=$(cat "$room/count")
echo 'refused: out of memory' > "$room/refusal"

out_of_memory=0
as_ample=0
otherwise=0
for ((number = 1; number <= requests; number++)); do
    status=$(run "$number" /dev/null "$@")
    if [ "$status" -eq 1 ] && [ ! -s "$room/lines" ] && cmp -s "$room/told" "$room/refusal"; then
        out_of_memory=$((out_of_memory + 1))
    elif [ "$status" -eq "$ample" ] && cmp -s "$room/lines" "$room/ample_lines" && cmp -s "$room/told" "$room/ample_told"; then
        as_ample=$((as_ample + 1))
    else
        otherwise=$((otherwise + 1))
        echo "request $number: status $status, $(wc -c < "$room/lines") bytes listed, $(head -c 200 "$room/told")"
    fi
done

echo "$requests requests, each refused in turn: $out_of_memory answered that memory ran out, $as_ample as with ample memory, $otherwise otherwise"
[ "$requests" -gt 0 ] && [ "$otherwise" -eq 0 ]
