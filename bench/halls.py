#!/usr/bin/env python3
"""What a call of the table of transactions costs with many rows, as a multiple of its cost with few.

    halls.py [--program FILE] [--few N] [--calls N] [--repeat N]

Scripts for `yefontsila replay` park few or many requests over one connection, and then

- expire so many times, where nothing is due,
- park so many further requests,
- or park as many and, after each, claim the one that has been parked longest.

What the parked rows themselves take is measured by the script that ends there, and taken off. A ratio of 1 says that a
call costs the same however many rows there are.
"""
import argparse
import subprocess
import tempfile
import time
from pathlib import Path

from stream import frame, offer, request, response

PROGRAM = Path(__file__).resolve().parent.parent / "yefontsila"

# as many rows as a configuration may ask for
MOST = 16384

CONF = """capacity = %d
default = "site"
[[app]]
name = "site"
rules = ["halls.rules"]
responses = true
life = 1000000
"""
RULES = """SecRule REQUEST_METHOD "@streq NONE" "id:10,phase:1,deny"
"""


def parked(number):
    """A request that is looked up, enters, is judged, is parked and is answered."""
    asked = frame(3, number + 1, 1, request(b"t%d" % number, b"GET", b"/", b"", [], b""))
    return ["feed 0 " + asked.hex()] + ["act 0"] * 5


def claimed(number, other):
    answer = frame(3, number + 1, 2, response(b"t%d" % other))
    return ["feed 0 " + answer.hex()] + ["act 0"] * 3


def scripts(rows, calls, expiries):
    base = ["open 0", "feed 0 " + offer().hex(), "act 0"]
    for number in range(rows):
        base += parked(number)
    parks, pairs = [], []
    for number in range(calls):
        parks += parked(rows + number)
        pairs += parked(rows + number) + claimed(rows + number, number)
    return {"rows": base, "expire": base + ["expire 0"] * expiries, "park": base + parks, "pair": base + pairs}


def seconds(program, conf, lines, repeat):
    text = "".join(line + "\n" for line in lines).encode()
    best = None
    for _ in range(repeat):
        start = time.perf_counter()
        subprocess.run([program, "replay", conf], input=text, check=True, stdout=subprocess.DEVNULL)
        spent = time.perf_counter() - start
        best = spent if best is None else min(best, spent)
    return best


def costs(program, conf, rows, calls, expiries, repeat):
    """Microseconds that one call takes."""
    spent = {kind: seconds(program, conf, lines, repeat) for kind, lines in scripts(rows, calls, expiries).items()}
    park = spent["park"] - spent["rows"]
    resume = spent["pair"] - spent["rows"] - park
    each = {"expire": (spent["expire"] - spent["rows"]) / expiries, "park": park / calls, "resume": resume / calls}
    return {kind: max(cost, 1e-9) * 1e6 for kind, cost in each.items()}


def main():
    parser = argparse.ArgumentParser(description=__doc__, formatter_class=argparse.RawDescriptionHelpFormatter)
    parser.add_argument("--program", default=str(PROGRAM))
    parser.add_argument("--few", type=int, default=16)
    parser.add_argument("--calls", type=int, default=1000)
    parser.add_argument("--repeat", type=int, default=3)
    options = parser.parse_args()
    many_rows = MOST - options.calls
    with tempfile.TemporaryDirectory() as folder:
        conf = Path(folder) / "agent.toml"
        conf.write_text(CONF % MOST)
        (Path(folder) / "halls.rules").write_text(RULES)
        # an expiry among few rows takes so little that it is made more often
        few = costs(options.program, str(conf), options.few, options.calls, 100 * options.calls, options.repeat)
        many = costs(options.program, str(conf), many_rows, options.calls, options.calls, options.repeat)
        print("| call | µs, from %d rows | µs, from %d rows | ratio |\n|---|---|---|---|" % (options.few, many_rows))
        for kind in few:
            print("| %s | %.2f | %.2f | %.1f |" % (kind, few[kind], many[kind], many[kind] / few[kind]))


if __name__ == "__main__":
    main()
