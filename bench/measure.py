#!/usr/bin/env python3
"""Requests a second of `yefontsila once`, for doubling numbers of requests, of detection rules and of bytes of a form.

    measure.py [--requests N] [--repeat N]

Each number is the best of some runs. What reading and compiling the rules takes is measured by a stream without
requests, and taken off. Read the columns as ratios: a figure that halves where its row doubles has grown with it, and
one that falls to a quarter with its square.
"""
import argparse
import re
import subprocess
import sys
import tempfile
import time
from pathlib import Path

HERE = Path(__file__).resolve().parent
ROOT = HERE.parent
PROGRAM = ROOT / "yefontsila"
RULES = ROOT / "examples" / "realistic.rules"
RULE = re.compile(r"SecRule (?:[^\n]*\\\n)*[^\n]*\n")


def stream(count, kind="mixed", size=200):
    words = [sys.executable, str(HERE / "stream.py"), str(count), "--kind", kind, "--bytes", str(size)]
    return subprocess.run(words, check=True, capture_output=True).stdout


def detection_rules(text):
    """The rules that look for attacks: those with identifiers from 930000 to 949999, but for the decision."""
    return [rule for rule in RULE.findall(text) if re.search(r"id:9[34]\d{4}", rule) and "id:949110" not in rule]


def grown(times):
    """The realistic file with its detection rules that many times, each time under other identifiers."""
    text = RULES.read_text()
    rules = detection_rules(text)
    more = []
    for turn in range(1, times):
        more += [re.sub(r"id:(\d+)", lambda found: f"id:{turn}{found.group(1)}", rule) for rule in rules]
    cut = text.index("SecRule TX:anomaly_score")
    return text[:cut] + "\n".join(more) + "\n" + text[cut:]


def seconds(rules, asked, repeat):
    best = None
    for _ in range(repeat):
        start = time.perf_counter()
        subprocess.run([str(PROGRAM), "once", str(rules)], input=asked, check=True, stdout=subprocess.DEVNULL)
        spent = time.perf_counter() - start
        best = spent if best is None else min(best, spent)
    return best


def rate(rules, count, repeat, kind="mixed", size=200):
    spent = seconds(rules, stream(count, kind, size), repeat) - seconds(rules, stream(0), repeat)
    return count / max(spent, 1e-9)


def main():
    parser = argparse.ArgumentParser(description=__doc__, formatter_class=argparse.RawDescriptionHelpFormatter)
    parser.add_argument("--requests", type=int, default=1000)
    parser.add_argument("--repeat", type=int, default=3)
    options = parser.parse_args()
    count, repeat = options.requests, options.repeat
    print("requests    requests/s")
    for times in (1, 2, 4, 8):
        print(f"{count * times:8}  {rate(RULES, count * times, repeat):12.0f}", flush=True)
    print("\nkind        requests/s")
    for kind in ("plain", "hit", "form"):
        print(f"{kind:8}  {rate(RULES, count, repeat, kind):12.0f}", flush=True)
    detection = len(detection_rules(RULES.read_text()))
    print("\ndetection rules  requests/s")
    with tempfile.TemporaryDirectory() as folder:
        for times in (1, 2, 4, 8, 16):
            file = Path(folder) / f"{times}.rules"
            file.write_text(grown(times))
            print(f"{detection * times:15}  {rate(file, count, repeat):10.0f}", flush=True)
    print("\nbytes       requests/s")
    for size in (500, 1000, 2000, 4000, 8000):
        print(f"{size:8}  {rate(RULES, count, repeat, 'form', size):12.0f}", flush=True)


if __name__ == "__main__":
    main()
