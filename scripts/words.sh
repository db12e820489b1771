#!/usr/bin/env bash
# For scripts that read this: what they say where a word is wrong or something is missing, and end with status 2.

# Says what is wrong with the words, and how the script is used.
wrong_words() {
    {
        echo "$1"
        echo
        sed -n '2,/^$/s/^# \{0,1\}//p' "$0"
    } >&2
    exit 2
}

# Says which of these programs isn't there.
want() {
    local program
    for program; do
        if ! command -v "$program" > /dev/null; then
            echo "$program isn't on the path" >&2
            [ "$program" != rt ] || echo "it is in the folder bin of the Rattle toolchain" >&2
            exit 2
        fi
    done
}
