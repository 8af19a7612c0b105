#!/usr/bin/env python3
"""Refuses one allocation of the built program after the other, and says what became of each run.

    refused_memory.py [--program FILE] [--first N] [--serve-every N]

The N-th call of malloc, calloc, realloc or an aligned kin answers that there is no memory; the others are the system's
own. So the program runs as it is, with what the runtime takes before `main` and after it.

- `check` and `replay` of the shipped examples, the second with two connections on one table, and a script that reloads:
  the status is 6 and what was written is a prefix of the whole output, or the run is as if nothing had been refused.
- `serve` with one worker: a peer asks, and is answered or told that there was no memory, or loses its connection; the
  next peer is answered; and then no row is running.

The status is 1 where a run is anything else. Where no C compiler is found, nothing is tried.
"""
import argparse
import os
import shutil
import socket
import subprocess
import sys
import tempfile
import time
from pathlib import Path

ROOT = Path(__file__).resolve().parent.parent
sys.path.insert(0, str(ROOT / "bench"))
import stream  # noqa: E402

SHIM = r"""
#include <errno.h>
#include <fcntl.h>
#include <stdio.h>
#include <stdlib.h>
#include <string.h>
#include <sys/syscall.h>
#include <unistd.h>

extern void *__libc_malloc(size_t);
extern void *__libc_calloc(size_t, size_t);
extern void *__libc_realloc(void *, size_t);
extern void *__libc_memalign(size_t, size_t);

static unsigned long calls, wanted;
static int is_read;

/* Whether this call is the one to be refused. REFUSE is a number; a file REFUSE_FROM holds it back until it is there. */
static int is_refused(void) {
    const char *from = getenv("REFUSE_FROM");
    if (!is_read) {
        const char *word = getenv("REFUSE");
        wanted = word ? strtoul(word, 0, 10) : 0;
        is_read = 1;
    }
    if (from && access(from, F_OK) != 0) return 0;
    return __atomic_add_fetch(&calls, 1, __ATOMIC_SEQ_CST) == wanted;
}

#define REFUSABLE(call) do { if (is_refused()) { errno = ENOMEM; return 0; } return call; } while (0)

void *malloc(size_t size) { REFUSABLE(__libc_malloc(size)); }
void *calloc(size_t count, size_t size) { REFUSABLE(__libc_calloc(count, size)); }
void *realloc(void *old, size_t size) { REFUSABLE(__libc_realloc(old, size)); }
void *memalign(size_t to, size_t size) { REFUSABLE(__libc_memalign(to, size)); }
void *aligned_alloc(size_t to, size_t size) { REFUSABLE(__libc_memalign(to, size)); }
int posix_memalign(void **out, size_t to, size_t size) {
    if (is_refused()) return ENOMEM;
    *out = __libc_memalign(to, size);
    return *out ? 0 : ENOMEM;
}

static void tell(void) {
    const char *name = getenv("REFUSE_COUNT");
    char text[32];
    if (!name) return;
    int file = open(name, O_WRONLY | O_CREAT | O_TRUNC, 0600);
    if (file < 0) return;
    int length = snprintf(text, sizeof text, "%lu\n", calls);
    if (write(file, text, (size_t)length) < 0) {}
    close(file);
}

/* The program ends by it. */
void _exit(int status) {
    tell();
    for (;;) syscall(SYS_exit_group, status);
}
"""

RELOADS = b"reload\nstats\n"

# The types of the frames that a peer is told whose request and response both pass: HELLO, and two ACKs.
WHOLE = [101, 103, 103]

# The type of a DISCONNECT.
LEAVES = 102


class Refuser:
    def __init__(self, program, folder):
        compiler = shutil.which("cc") or shutil.which("gcc") or shutil.which("clang")
        if not compiler:
            sys.exit("refused_memory.py: no C compiler is found, so nothing was tried")
        source, self.library = Path(folder) / "refuse.c", Path(folder) / "refuse.so"
        source.write_text(SHIM)
        subprocess.run([compiler, "-O1", "-fno-builtin", "-shared", "-fPIC", "-o", self.library, source], check=True)
        self.program, self.count = program, Path(folder) / "count"

    def environment(self, number, **more):
        return dict(os.environ, LD_PRELOAD=str(self.library), REFUSE=str(number), REFUSE_COUNT=str(self.count), **more)

    def run(self, words, given, number):
        """The status, the output and how many allocations were asked for, where the N-th is refused."""
        self.count.unlink(missing_ok=True)
        run = subprocess.run([self.program, *words], input=given, capture_output=True, env=self.environment(number),
                             cwd=ROOT, timeout=60)
        calls = int(self.count.read_text()) if self.count.exists() else 0
        return run.returncode, run.stdout, calls


def tried(refuser, name, words, given, first):
    status, whole, calls = refuser.run(words, given, 0)
    if status != 0 or not calls:
        sys.exit("refused_memory.py: %s ends with %d after %d allocations though none is refused" % (name, status, calls))
    told = {"6": 0, "whole": 0}
    bad = []
    for number in range(first, calls + 1):
        status, written, _ = refuser.run(words, given, number)
        if status == 6 and whole.startswith(written):
            told["6"] += 1
        elif status == 0 and written == whole:
            told["whole"] += 1
        else:
            bad.append((number, status, len(written)))
    print("%-12s %6d allocations: %d runs end with status 6, %d are whole, %d are neither %s" % (
        name, calls, told["6"], told["whole"], len(bad), bad[:5] or ""))
    return not bad


class Agent:
    """`serve` with one worker, and rules whose responses are judged. Refusing begins once `begin` was called."""

    def __init__(self, refuser, folder, number):
        with socket.socket() as free:
            free.bind(("127.0.0.1", 0))
            self.port = free.getsockname()[1]
        conf, self.mark = Path(folder) / "agent.toml", Path(folder) / "begun"
        self.mark.unlink(missing_ok=True)
        conf.write_text('workers = 1\nshards = 1\ncapacity = 8\nlisten = "127.0.0.1:%d"\n[[app]]\nname = ""\nrules = ["%s"]\n'
                        "responses = true\n" % (self.port, ROOT / "examples" / "replay.rules"))
        self.run = subprocess.Popen([refuser.program, "serve", str(conf)], stdin=subprocess.PIPE, stdout=subprocess.PIPE,
                                    env=refuser.environment(number, REFUSE_FROM=str(self.mark)))
        self.stats()

    def begin(self):
        self.mark.touch()

    def stats(self):
        self.run.stdin.write(b"stats\n")
        self.run.stdin.flush()
        said = self.run.stdout.readline().decode().split()
        return int(said[2]) if said[:2] == ["stats", "running"] else None

    def asked(self, place):
        """What a peer is told that says HELLO, asks about a request and then about its response."""
        try:
            with socket.create_connection(("127.0.0.1", self.port), 5) as peer:
                peer.settimeout(5)
                identifier = b"m%d" % place
                peer.sendall(stream.offer() + stream.frame(3, 1, 1, stream.request(identifier, b"GET", b"/", b"", [], b""))
                             + stream.frame(3, 1, 2, stream.response(identifier)))
                peer.shutdown(socket.SHUT_WR)
                told = b""
                while piece := peer.recv(4096):
                    told += piece
                return told
        except OSError:
            return b""

    def end(self):
        self.run.stdin.close()
        try:
            return self.run.wait(5)
        except subprocess.TimeoutExpired:
            self.run.kill()
            return self.run.wait()


def acks(told):
    """The types of the frames that were told."""
    kinds = []
    while len(told) >= 4 + int.from_bytes(told[:4], "big") > 4:
        size = int.from_bytes(told[:4], "big")
        kinds.append(told[4])
        told = told[4 + size:]
    return kinds


def served(refuser, folder, step):
    """Refuses the allocations that one peer of a running agent needs, one number after the other."""
    told = {"answered": 0, "told": 0, "lost": 0}
    bad, number = [], 1
    while True:
        agent = Agent(refuser, folder, number)
        agent.begin()
        first = acks(agent.asked(number))
        whole = first == WHOLE
        second = acks(agent.asked(10_000 + number))
        for _ in range(100):
            running = agent.stats()
            if running == 0:
                break
            time.sleep(0.01)
        status = agent.end()
        answered = second == WHOLE
        if whole:
            told["answered"] += 1
        elif first and first[-1] == LEAVES:
            told["told"] += 1
        else:
            told["lost"] += 1
        if running != 0 or not (answered or whole) or status not in (0, 6):
            bad.append((number, first, second, running, status))
        calls = int(refuser.count.read_text()) if refuser.count.exists() else 0
        if whole and answered and number > calls:
            break
        number += step
    print("%-12s %6d allocations: %d peers are answered whole, %d told that there is no memory, %d lose the connection; "
          "%d runs are not as they should be %s" % ("serve", number, told["answered"], told["told"], told["lost"], len(bad),
                                                    bad[:5] or ""))
    return not bad


def main():
    words = argparse.ArgumentParser(description=__doc__, formatter_class=argparse.RawDescriptionHelpFormatter)
    words.add_argument("--program", default=str(ROOT / "crates" / "yefontsila" / "out" / "yefontsila"))
    words.add_argument("--first", type=int, default=1, help="the first allocation to refuse")
    words.add_argument("--serve-every", type=int, default=1, help="every which allocation of `serve` is refused")
    given = words.parse_args()
    script = (ROOT / "examples" / "replay.script").read_bytes()
    with tempfile.TemporaryDirectory() as folder:
        refuser = Refuser(given.program, folder)
        runs = [
            ("check", ["check", "examples/replay.toml"], b""),
            ("replay", ["replay", "examples/replay.toml"], script),
            ("plain", ["replay", "--plain", "examples/replay.toml"], script),
            ("reload", ["replay", "examples/replay.toml"], RELOADS),
        ]
        good = [tried(refuser, *run, given.first) for run in runs]
        good.append(served(refuser, folder, given.serve_every))
    return 0 if all(good) else 1


if __name__ == "__main__":
    sys.exit(main())
