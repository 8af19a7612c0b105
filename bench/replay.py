#!/usr/bin/env python3
"""Seconds of `yefontsila replay` for scripts of doubling length.

    replay.py [--connections N] [--repeat N]
    replay.py --write STEPS [--connections N]

A script opens N connections and sends requests over them in turn, ten steps for each: most are denied, every fiftieth
is parked and claimed by its response, so few rows are ever parked. `--write` prints such a script instead of running it.
"""
import argparse
import subprocess
import sys
import tempfile
import time
from pathlib import Path

from stream import frame, offer, request, response

PROGRAM = Path(__file__).resolve().parent.parent / "yefontsila"

CONF = """capacity = 16
default = "site"
[[app]]
name = "site"
rules = ["replay.rules"]
responses = true
life = 1000
"""
RULES = """SecRule ARGS "@contains <script" "id:10,phase:2,deny"
"""


def turn(conn, number):
    """The ten steps of a request: fed, its rules, its row, its judgement, the row left or parked, the ACK, and stats."""
    name = b"t%d" % number
    is_parked = number % 50 == 0
    query = b"q=hats" if is_parked else b"q=<script>"
    asked = frame(3, number + 1, 1, request(name, b"GET", b"/", query, [b"Host: example.org"], b""))
    acts = ["act %d" % conn] * 5
    if not is_parked:
        return ["feed %d %s" % (conn, asked.hex()), *acts, "tick 1", "expire 0", "stats", "tick 1"]
    answer = frame(3, number + 1, 2, response(name))
    return ["feed %d %s" % (conn, asked.hex()), *acts, "feed %d %s" % (conn, answer.hex()), *acts[:3]]


def script(steps, connections):
    lines = []
    for conn in range(connections):
        lines += ["open %d" % conn, "feed %d %s" % (conn, offer().hex()), "act %d" % conn]
    number = 0
    while len(lines) < steps:
        lines += turn(number % connections, number)
        number += 1
    return "".join(line + "\n" for line in lines[:steps]).encode()


def seconds(conf, text, repeat):
    best = None
    for _ in range(repeat):
        start = time.perf_counter()
        subprocess.run([str(PROGRAM), "replay", conf], input=text, check=True, stdout=subprocess.DEVNULL)
        spent = time.perf_counter() - start
        best = spent if best is None else min(best, spent)
    return best


def main():
    parser = argparse.ArgumentParser(description=__doc__, formatter_class=argparse.RawDescriptionHelpFormatter)
    parser.add_argument("--connections", type=int, default=2000)
    parser.add_argument("--repeat", type=int, default=3)
    parser.add_argument("--write", type=int, metavar="STEPS")
    options = parser.parse_args()
    if options.write:
        sys.stdout.buffer.write(script(options.write, options.connections))
        return
    with tempfile.TemporaryDirectory() as folder:
        (Path(folder) / "agent.toml").write_text(CONF)
        (Path(folder) / "replay.rules").write_text(RULES)
        print("| steps | seconds | steps/s |\n|---|---|---|")
        for steps in (10000, 20000, 40000, 80000):
            spent = seconds(str(Path(folder) / "agent.toml"), script(steps, options.connections), options.repeat)
            print("| %d | %.2f | %d |" % (steps, spent, steps / spent))


if __name__ == "__main__":
    main()
