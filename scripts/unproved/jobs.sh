#!/usr/bin/env bash
# For scripts that read this: what they run beside themselves, which doesn't outlive them.

# Runs these words in the background, in a group of processes of their own.
jobs_begun=()
begin() {
    set -m
    "$@" < /dev/null &
    set +m
    jobs_begun+=($!)
}

# Waits for the job of this number, the first is 0; the status is 1 if it failed, however it ended.
end() {
    wait "${jobs_begun[$1]}" || return 1
}

# Stops what still runs, and whatever that has started.
stop_jobs() {
    local it
    for it in "${jobs_begun[@]}"; do kill -- "-$it" 2> /dev/null || true; done
    wait
}
