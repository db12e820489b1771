#!/usr/bin/env python3
"""Runs the gate and prints the processor time that it took, by crate and phase.

    scripts/gate_times.py [--anew] [CRATE..]

Run it at the top of a clean clone, with nothing beside it on the machine. First comes what the gate itself prints, then the
table, and at the end once more the gate's last line, which says how many passed; the status is the gate's. Where the toolchain keeps
what passes, a later run doesn't prove it again, `--anew` proves all, and with names it is `rt ci` of these crates and those below
them; another toolchain proves all each time, and takes none of these words. The table is in processor seconds, user and system, and its
rows are the crates:

    proof   the crate is proved, and the statements are written that the crates above it use
    edits   its must-fail edits are tried
    tests   its tests are proved, compiled and run

The time of a process is that of its last reading, so it misses at most half a second of each. Below the table is the time of
all processes as the system counts it, and the time that passed.

Each processor proves a crate by itself (`RT_JOBS`). Left to itself, the gate has several processors share one proof where others would be
idle; each of them reads the crates below once more, so that small crates cost twice their time.
"""
import os
import re
import resource
import subprocess
import sys
import threading
import time

TICKS = os.sysconf("SC_CLK_TCK")
PHASES = ("proof", "edits", "tests", "other")


def text_of(path):
    try:
        with open(path, encoding="utf-8", errors="replace") as it:
            return it.read()
    except OSError:
        return ""


def processes():
    """Each process: the one that started it, its processor seconds, and when it began."""
    found = {}
    for name in os.listdir("/proc"):
        stat = text_of(f"/proc/{name}/stat") if name.isdigit() else ""
        if stat:
            fields = stat[stat.rindex(")") + 2 :].split()
            found[int(name)] = int(fields[1]), (int(fields[11]) + int(fields[12])) / TICKS, fields[19]
    return found


def place_of(pid):
    """The crate and the phase that a process works for, as its words or its folder show."""
    words = text_of(f"/proc/{pid}/cmdline").split("\0")
    try:
        folder = os.readlink(f"/proc/{pid}/cwd")
    except OSError:
        folder = ""
    crate = words[words.index("--crate-name") + 1] if "--crate-name" in words else ""
    if crate and "/rt-edit-" in folder:
        return crate, "edits"
    if crate:
        return crate, "tests" if "--test" in words else "proof"
    tests = re.search(r"/bin/(\w+)_tests\b", " ".join(words))
    if tests:
        return tests[1], "tests"
    return "", "other"


def read(gate, seen):
    """Notes the time of each process below the gate, and what it works for: a process of no known place works for its parent."""
    now = processes()
    for pid, (parent, seconds, began) in now.items():
        line = [pid]
        while parent in now and parent != gate and line[-1] != gate:
            line.append(parent)
            parent = now[parent][0]
        if parent != gate:
            continue
        key = pid, began
        if key not in seen or seen[key][0][1] == "other":
            places = [place_of(it) for it in line]
            place = next((it for it in places if it[1] != "other"), ("", "other"))
            seen[key] = place, seconds
        seen[key] = seen[key][0], seconds


def table(seen):
    sums = {}
    for (crate, phase), seconds in seen.values():
        sums.setdefault(crate or "(rt itself)", dict.fromkeys(PHASES, 0.0))[phase] += seconds
    lines = ["| Crate | Proof | Edits | Tests | Other |", "|---|---|---|---|---|"]
    for crate in sorted(sums, key=lambda it: (it.startswith("("), it)):
        lines.append("| " + " | ".join([crate, *(f"{sums[crate][it]:.0f}" for it in PHASES)]) + " |")
    whole = [sum(it[phase] for it in sums.values()) for phase in PHASES]
    lines.append("| " + " | ".join(["all", *(f"{it:.0f}" for it in whole)]) + " |")
    return "\n".join(lines)


def watch(gate, seen):
    """Reads the times until the gate has ended. A reading that fails is left out: the gate's verdict doesn't depend on it."""
    while gate.poll() is None:
        try:
            read(gate.pid, seen)
        except (OSError, ValueError):
            pass
        time.sleep(0.5)


def main():
    began, seen, last = time.time(), {}, ""
    how = {"stdin": subprocess.DEVNULL, "stdout": subprocess.PIPE, "stderr": subprocess.STDOUT}
    lanes = {"RT_JOBS": str(len(os.sched_getaffinity(0)))}
    gate = subprocess.Popen(["rt", "ci", *sys.argv[1:]], text=True, errors="replace", env={**lanes, **os.environ}, **how)
    watcher = threading.Thread(target=watch, args=(gate, seen), daemon=True)
    watcher.start()
    for line in gate.stdout:
        print(line, end="", flush=True)
        last = line
    status = gate.wait()
    watcher.join()
    used = resource.getrusage(resource.RUSAGE_CHILDREN)
    print(table(seen))
    whole = used.ru_utime + used.ru_stime
    print(f"{whole / 60:.1f} processor minutes, {(time.time() - began) / 60:.1f} minutes")
    print(last, end="")
    return status


if __name__ == "__main__":
    sys.exit(main())
