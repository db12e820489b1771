#!/usr/bin/env bash
# For scripts that read this at the top of the repository: which crates a crate is built on.

# Prints the crates of the repository below a crate, each once and after those that it is built on itself, and last the crate.
crates_below() {
    awk -v wanted="$1" '
        function visit(name,    names, count, at) {
            if (seen[name]++) return
            count = split(named_by[name], names, " ")
            for (at = 1; at <= count; at++) if (names[at] in named_by) visit(names[at])
            print name
        }
        { sub(/#.*/, "") }
        # after the name may be what is made from the crate
        split($0, parts, ":") == 2 { split(parts[1], words, " "); named_by[words[1]] = parts[2] }
        END { if (wanted in named_by) visit(wanted) }
    ' crates.txt
}
