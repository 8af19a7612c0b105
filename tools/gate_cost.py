#!/usr/bin/env python3
"""tools/gate_cost.py [--anew] [CRATE..]

Runs `rt ci` with these words at the top of the repository, and prints, crate by
crate, the processor minutes that its proof, the proof of its tests and its
must-fail edits took, as a Markdown table for docs/GATE.md.  The times are those of
the system for each process that `rt ci` started, read twice a second, so a process
is counted up to its last half second.  The status is that of `rt ci`."""

import collections
import os
import subprocess
import sys
import threading
import time

TICK = os.sysconf("SC_CLK_TCK")


def processes():
    """Yields each process as (number, parent, start, processor seconds)."""
    for name in os.listdir("/proc"):
        if name.isdigit():
            try:
                with open(f"/proc/{name}/stat", "rb") as it:
                    said = it.read().rpartition(b")")[2].split()
            except OSError:
                continue
            yield int(name), int(said[1]), said[19], (int(said[11]) + int(said[12])) / TICK


def kind_of(number):
    """Returns the crate and the kind of work that a process does, or None where it can't be told yet."""
    try:
        with open(f"/proc/{number}/cmdline", "rb") as it:
            words = it.read().decode(errors="replace").split("\0")
        folder = os.readlink(f"/proc/{number}/cwd")
    except OSError:
        return None
    if "--crate-name" not in words[:-1]:
        return None
    crate = words[words.index("--crate-name") + 1]
    if "/rt-edit" in folder:
        return crate, "edits"
    return crate, "tests" if "--test" in words else "proof"


def watch(top, spent, known, done):
    """Notes what the processes below the number `top` have spent, until `done` is set."""
    while not done.wait(0.5):
        found = {number: (parent, start, seconds) for number, parent, start, seconds in processes()}
        for number, (parent, start, seconds) in found.items():
            at = number
            while at in found and at != top:
                at = found[at][0]
            if at != top:
                continue
            name = number, start
            known.setdefault(name, None)
            known[name] = known[name] or kind_of(number)
            spent[name] = seconds


def main():
    began = time.time()
    run = subprocess.Popen(["rt", "ci", *sys.argv[1:]], stdin=subprocess.DEVNULL)
    spent, known, done = {}, {}, threading.Event()
    watcher = threading.Thread(target=watch, args=(run.pid, spent, known, done))
    watcher.start()
    status = run.wait()
    done.set()
    watcher.join()
    sums = collections.defaultdict(lambda: collections.defaultdict(float))
    for name, seconds in spent.items():
        crate, kind = known[name] or ("(rest: builds, programs, rt itself)", "proof")
        sums[crate][kind] += seconds / 60
    print("| Crate | Proof | Tests | Edits | Together |\n|---|---|---|---|---|")
    total = 0
    for crate, kinds in sorted(sums.items(), key=lambda it: -sum(it[1].values())):
        row = [kinds[it] for it in ("proof", "tests", "edits")]
        total += sum(row)
        print("|", crate, "|", " | ".join(f"{it:.1f}" for it in (*row, sum(row))), "|")
    print(f"| all | | | | {total:.0f} |\n\n{(time.time() - began) / 60:.0f} minutes on {os.cpu_count()} processors")
    return status


if __name__ == "__main__":
    sys.exit(main())
