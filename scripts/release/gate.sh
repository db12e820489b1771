#!/usr/bin/env bash
# For scripts that read this at the top of the repository: what a gate passed here, of which it leaves a record in out/gate.
#
# The record has the gate's last line, the commit, the toolchain, a sum of the sources, and the sums of what was proved and built.

gate=out/gate
gate_leaves=(
    crates/{cargo_krates/out/cargo_krates,krates_check/out/krates_check,krates_list/out/krates_list}
    bindings/out/{libkrates_c.a,liblibc_c.a}
)

# Prints a sum of all that a proof reads.
gate_sources() {
    find crates.txt HANDLES crates -name out -prune -o -type f -print0 | LC_ALL=C sort -z | xargs -0 sha256sum | sha256sum | cut -d' ' -f1
}

# Writes the record of a gate whose last line this is.
gate_write() {
    mkdir -p "${gate%/*}"
    {
        echo "line $1"
        echo "commit $(git rev-parse HEAD)"
        echo "toolchain $(rt version)"
        echo "sources $(gate_sources)"
        sha256sum "${gate_leaves[@]}"
    } > "$gate"
}

# Prints what the record says of a word.
gate_says() {
    sed -n "s/^$1 //p" "$gate"
}

# Whether a gate passed these sources and left these files, and nothing of it has changed since.
gate_left() {
    local file
    [ -f "$gate" ] && [ "$(gate_says sources)" = "$(gate_sources)" ] || return 1
    for file; do
        grep -E "^[0-9a-f]{64}  $file$" "$gate" | sha256sum --check --status || return 1
    done
}
