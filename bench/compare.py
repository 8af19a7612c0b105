#!/usr/bin/env python3
"""CPU time of a request in the agent beside libmodsecurity, and of loading rules: the same requests, one thread each.

    compare.py [--program FILE] [--repeat N] [--scale X]

The agent judges through `once`, SPOP included: one connection, a NOTIFY for each request, and one for the response of
each that was not denied. What starting and reading the rules take is measured by a stream without requests and taken
off. libmodsecurity judges through its transaction API, by bench/modsecurity.c, which is compiled here. Each figure is
the best of some runs, agent and library in turn. Needs Python 3; without a C compiler and libmodsecurity-dev the agent
is shown alone, and without Debian's modsecurity-crs there is no row for the rule set.
"""
import argparse
import os
import re
import shutil
import subprocess
import sys
import tempfile
from pathlib import Path

import stream

HERE = Path(__file__).resolve().parent
ROOT = HERE.parent
REALISTIC = ROOT / "examples" / "realistic.rules"
RULE_SET = Path("/usr/share/modsecurity-crs/rules")

PUTS = """SecRuleEngine On
SecRequestBodyAccess On
SecRequestBodyLimit 65536
SecRule ARGS "@rx ." "id:1,phase:2,pass,nolog,t:none,setvar:tx.%{MATCHED_VAR_NAME}=1"
"""

HOST, USER_AGENT = (b"Host", b"example.org"), (b"User-Agent", b"Mozilla/5.0 (X11; Linux x86_64)")
PLAIN_HEADERS = [HOST, USER_AGENT, (b"Accept", b"text/html,*/*;q=0.8"), (b"Cookie", b"session=0123456789abcdef")]
FORM_TYPE = (b"Content-Type", b"application/x-www-form-urlencoded")


# --- requests: method, path, query, headers, body ---

def get(path, query):
    return b"GET", path, query, PLAIN_HEADERS, b""


def post(body):
    return b"POST", b"/send", b"", PLAIN_HEADERS + [FORM_TYPE, (b"Content-Length", b"%d" % len(body))], body


def mixed(count):
    """Plain requests, hits and forms in turn, as stream.py has them, no two of a kind alike."""
    for place in range(count):
        if place % 3 == 0:
            yield get(b"/article", b"page=%d&order=newest" % place)
        elif place % 3 == 1:
            yield get(b"/search", b"a=<script>&b=%%3Cscript%%3E%d&c=javascript:x" % place)
        else:
            yield post(stream.form(200) + b"&place=%d" % place)


def fields(count, number):
    body = b"&".join(b"field%d=some+words+of+a+text" % place for place in range(number))
    return (post(body) for _ in range(count))


def long_field(count, size):
    return (post(b"text=" + (b"someplainwords" * size)[:size]) for _ in range(count))


def short_fields(count, number):
    body = b"&".join(b"a%d=1" % place for place in range(number))
    return (post(body) for _ in range(count))


# --- the two that judge ---

def cpu(words, asked, answers=subprocess.DEVNULL):
    """CPU seconds of a program that reads this file; its status has to be 0."""
    with open(asked, "rb") as given:
        run = subprocess.Popen(words, stdin=given, stdout=answers)
        _, status, used = os.wait4(run.pid, 0)
        run.returncode = os.waitstatus_to_exitcode(status)
    if run.returncode != 0:
        sys.exit("compare.py: %s ended with status %d" % (" ".join(map(str, words)), run.returncode))
    return used.ru_utime + used.ru_stime


def notify(place, request):
    method, path, query, headers, body = request
    lines = [name + b": " + value for name, value in headers]
    return stream.frame(3, place + 1, 1, stream.request(b"t%d" % place, method, path, query, lines, body))


def frames(answers):
    while answers:
        size = 4 + int.from_bytes(answers[:4], "big")
        yield answers[:size]
        answers = answers[size:]


def denied(program, rules, requests, folder):
    """Whether each request is denied, by the ACKs of streams with as many requests as the table has room for."""
    told = []
    for first in range(0, len(requests), 1000):
        asked, answers = folder / "asked", folder / "answers"
        some = requests[first:first + 1000]
        asked.write_bytes(stream.offer() + b"".join(notify(place, one) for place, one in enumerate(some)))
        with open(answers, "wb") as out:
            cpu([program, "once", rules], asked, out)
        acks = list(frames(answers.read_bytes()))[1:]
        if len(acks) != len(some) or any(b"\x05error" in ack for ack in acks):
            sys.exit("compare.py: the agent did not judge every request")
        told += [b"\x06action" in ack for ack in acks]
    return told


class Agent:
    def __init__(self, program, rules, requests, folder):
        self.program, self.rules, self.folder, self.count = program, rules, folder, len(requests)
        are_denied = denied(program, rules, requests, folder)
        self.interrupted = sum(are_denied)
        out = [stream.offer()]
        for place, request in enumerate(requests):
            out.append(notify(place, request))
            if not are_denied[place]:
                out.append(stream.frame(3, place + 1, 2, stream.response(b"t%d" % place)))
        (folder / "stream").write_bytes(b"".join(out))
        (folder / "none").write_bytes(stream.offer())

    def seconds(self):
        whole = cpu([self.program, "once", self.rules], self.folder / "stream")
        return whole - cpu([self.program, "once", self.rules], self.folder / "none")


class Library:
    def __init__(self, program, files, requests, folder):
        self.words = [program, folder / "requests", *files]
        with open(folder / "requests", "wb") as out:
            for method, path, query, headers, body in requests:
                parts = [method, path + (b"?" + query if query else b""), body, *(part for pair in headers for part in pair)]
                out.write(len(parts).to_bytes(4, "little"))
                out.write(b"".join(len(part).to_bytes(4, "little") + part for part in parts))

    def run(self):
        """Seconds of loading, seconds of the requests, and how many were interrupted."""
        done = subprocess.run(self.words, check=True, capture_output=True, text=True).stdout.split()
        return float(done[0]), float(done[1]), int(done[2])


def built_library(folder):
    """The program over libmodsecurity, or None with a word why not."""
    program = folder / "modsecurity"
    compiler = shutil.which("cc")
    if compiler is None:
        print("compare.py: no C compiler (cc), so the agent stands alone", file=sys.stderr)
        return None
    done = subprocess.run([compiler, "-O2", "-o", program, HERE / "modsecurity.c", "-lmodsecurity"], capture_output=True)
    if done.returncode != 0:
        print("compare.py: libmodsecurity-dev is missing, so the agent stands alone", file=sys.stderr)
        return None
    return program


def rule_set(program, folder):
    """The rule set as the agent reads it: the file for `once`, the configuration, and the files for the library."""
    made = folder / "rule-set"
    words = [sys.executable, ROOT / "examples" / "rule-set.py", made, "--agent", program]
    done = subprocess.run(words, capture_output=True, text=True)
    if done.returncode != 0:
        print("compare.py: no row for the rule set: %s" % (done.stderr or done.stdout).strip(), file=sys.stderr)
        return None
    names = re.findall(r'"([^"]+\.conf)"', (made / "rule-set.toml").read_text())
    (made / "all.rules").write_text("".join("Include %s\n" % name for name in names))
    settings = (made / names[0]).read_text().replace("SecPatternMode Bytes\n", "")
    (made / "library-settings.conf").write_text(settings)
    return made / "all.rules", made / "rule-set.toml", [made / "library-settings.conf"] + [made / name for name in names[1:]]


def row(name, count, agent, library, repeat):
    """Prints a row: how long a request takes in both, and how often the agent judges one while the library does."""
    best, other, loading, interrupted = None, None, None, None
    for _ in range(repeat):
        spent = agent.seconds()
        best = spent if best is None else min(best, spent)
        if library is not None:
            load, spent, interrupted = library.run()
            other = spent if other is None else min(other, spent)
            loading = load if loading is None else min(loading, load)
    best = max(best, 1e-9)
    if library is None:
        print("| %s | %d | %.4f | | | %d |" % (name, count, best * 1000 / count, agent.interrupted), flush=True)
    else:
        print("| %s | %d | %.4f | %.4f | %.2f | %d, %d |" % (
            name, count, best * 1000 / count, other * 1000 / count, other / best, agent.interrupted, interrupted), flush=True)
    return loading


def main():
    words = argparse.ArgumentParser(description=__doc__, formatter_class=argparse.RawDescriptionHelpFormatter)
    words.add_argument("--program", default=str(ROOT / "yefontsila"))
    words.add_argument("--repeat", type=int, default=3)
    words.add_argument("--scale", type=float, default=1, help="how many times as many requests as usual")
    options = words.parse_args()
    program = os.path.abspath(options.program)
    with tempfile.TemporaryDirectory() as name:
        folder = Path(name)
        other = built_library(folder)
        puts = folder / "puts.rules"
        puts.write_text(PUTS)
        rows = [
            ("realistic rules, mixed requests", REALISTIC, [REALISTIC], mixed, 6000, ()),
            ("realistic rules, a form of 300 fields", REALISTIC, [REALISTIC], fields, 200, (300,)),
            ("realistic rules, one field of 8,000 plain bytes", REALISTIC, [REALISTIC], long_field, 1000, (8000,)),
            ("`setvar:tx.%{MATCHED_VAR_NAME}` over 1,000 arguments", puts, [puts], short_fields, 100, (1000,)),
        ]
        crs = rule_set(program, folder) if RULE_SET.is_dir() else None
        if crs is not None:
            rows.append(("OWASP rule set, mixed requests", crs[0], crs[2], mixed, 926, ()))
        elif not RULE_SET.is_dir():
            print("compare.py: modsecurity-crs is missing, so there is no row for the rule set", file=sys.stderr)
        print("| rules and requests | requests | agent, ms | libmodsecurity, ms | times as fast | denied |\n|---|---|---|---|---|---|")
        loading = None
        for title, rules, files, make, count, given in rows:
            count = max(1, int(count * options.scale))
            requests = list(make(count, *given))
            agent = Agent(program, rules, requests, folder)
            library = None if other is None else Library(other, files, requests, folder)
            loading = row(title, count, agent, library, options.repeat)
        if crs is not None:
            checked = min(cpu([program, "check", crs[1]], os.devnull) for _ in range(options.repeat))
            beside = "" if loading is None else " %.0f | %.2f" % (loading * 1000, loading / checked)
            print("| loading the OWASP rule set (`check`) | | %.0f |%s | |" % (checked * 1000, beside or " |"))


if __name__ == "__main__":
    main()
