#!/usr/bin/env python3
"""Rude clients against a running agent, on loopback: half a frame and no more, a reset in the middle of a NOTIFY, one
that reads nothing, 1,000 connections opened and dropped, and frames of random bytes for a while.

    rude_clients.py [--program FILE] [--seconds N] [--seed N] [--slack MIB]

While the first stay, and after all of them, a request on a new connection is answered; at the end `stats` shows no
running row, and the agent's memory is what it was before, up to the slack. The status is 1 where that is not so.
"""
import argparse
import json
import random
import socket
import struct
import subprocess
import sys
import tempfile
import time
from pathlib import Path

ROOT = Path(__file__).resolve().parent.parent
sys.path.insert(0, str(ROOT / "bench"))
import stream  # noqa: E402

WORKERS = 16


class Agent:
    def __init__(self, program, folder):
        with socket.socket() as free:
            free.bind(("127.0.0.1", 0))
            self.port = free.getsockname()[1]
        conf = Path(folder) / "agent.toml"
        rules = json.dumps(str(ROOT / "examples" / "realistic.rules"))
        conf.write_text('workers = %d\nlisten = "127.0.0.1:%d"\ndefault = "site"\n[[app]]\nname = "site"\nrules = [%s]\n'
                        "responses = false\n" % (WORKERS, self.port, rules))
        self.run = subprocess.Popen([program, "serve", str(conf)], stdin=subprocess.PIPE, stdout=subprocess.PIPE)
        self.stats()

    def stats(self):
        self.run.stdin.write(b"stats\n")
        self.run.stdin.flush()
        said = self.run.stdout.readline().decode().split()
        if said[:2] != ["stats", "running"]:
            raise SystemExit("rude_clients.py: the agent said %r" % " ".join(said))
        return int(said[2]), int(said[4])

    def memory(self):
        """KiB that the process holds."""
        status = Path("/proc/%d/status" % self.run.pid).read_text()
        return int(status.split("VmRSS:")[1].split()[0])

    def connect(self):
        peer = socket.create_connection(("127.0.0.1", self.port), 10)
        peer.settimeout(10)
        return peer

    def greeted(self):
        peer = self.connect()
        peer.sendall(stream.offer())
        take(peer)
        return peer

    def end(self):
        self.run.stdin.close()
        try:
            self.run.wait(5)
        except subprocess.TimeoutExpired:
            self.run.kill()
            self.run.wait()


def take(peer):
    """Reads one frame."""
    size = int.from_bytes(exactly(peer, 4), "big")
    return exactly(peer, size)


def exactly(peer, size):
    held = b""
    while len(held) < size:
        piece = peer.recv(size - len(held))
        if not piece:
            raise OSError("the agent closed a connection")
        held += piece
    return held


def notify(place):
    return stream.frame(3, place + 1, 1, stream.asked("form", place, 4000))


def dropped(peer):
    """Closes with a reset."""
    peer.setsockopt(socket.SOL_SOCKET, socket.SO_LINGER, struct.pack("ii", 1, 0))
    peer.close()


def is_answered(agent, place):
    """Whether a request that a rule denies is, on a new connection."""
    try:
        with agent.greeted() as peer:
            peer.sendall(stream.frame(3, 1, 1, stream.asked("hit", place, 0)))
            return b"\x06action" in take(peer)
    except OSError as fault:
        print("  %s" % fault)
        return False


def warmed(agent):
    """Lets each worker judge, so that what it keeps for later is there."""
    peers = [agent.greeted() for _ in range(WORKERS)]
    for place, peer in enumerate(peers):
        for kind in ("plain", "hit", "form"):
            peer.sendall(stream.frame(3, 1, 1, stream.asked(kind, 10 * place + len(kind), 4000)))
            take(peer)
    for peer in peers:
        peer.close()


# --- the rude ones; each gives what it leaves open ---

def half_a_frame(agent, _):
    peers = [agent.greeted(), agent.connect()]
    peers[0].sendall(notify(1)[:200])
    peers[1].sendall(stream.offer()[:7])
    return peers


def reset_in_a_notify(agent, _):
    for place in range(50):
        peer = agent.greeted()
        peer.sendall(notify(1000 + place) + notify(1100 + place)[:300])
        dropped(peer)
    return []


def reads_nothing(agent, _):
    peer = agent.greeted()
    peer.settimeout(2)
    try:
        for place in range(4000):  # (about 16 MiB)
            peer.sendall(notify(2000 + place))
    except OSError:
        pass
    return [peer]


def opened_and_dropped(agent, _):
    for place in range(1000):
        peer = agent.connect()
        if place % 2:
            peer.sendall(stream.offer())
        (dropped if place % 3 else socket.socket.close)(peer)
    return []


def random_bytes(agent, options):
    draw, until = random.Random(options.seed), time.monotonic() + options.seconds
    while time.monotonic() < until:
        try:
            with (agent.greeted() if draw.random() < 0.7 else agent.connect()) as peer:
                for _ in range(20):
                    noise = draw.randbytes(draw.randrange(1, 2000))
                    if draw.random() < 0.7:
                        noise = bytes([draw.choice((1, 2, 3))]) + b"\0\0\0\1" + noise
                    peer.sendall(len(noise).to_bytes(4, "big") + noise)
        except OSError:
            pass  # the agent closed, as it should
    return []


RUDE = [half_a_frame, reset_in_a_notify, reads_nothing, opened_and_dropped, random_bytes]


def tried(agent, options):
    is_good, left = True, []
    warmed(agent)
    before = agent.memory()
    for place, rude in enumerate(RUDE):
        left += rude(agent, options)
        answered = is_answered(agent, 10**6 + place)
        print("%s: a new request is %s" % (rude.__name__, "answered" if answered else "NOT answered"), flush=True)
        is_good &= answered
    for peer in left:
        peer.close()
    until = time.monotonic() + 10
    while agent.stats() != (0, 0) and time.monotonic() < until:
        time.sleep(0.2)
    (running, parked), after = agent.stats(), agent.memory()
    is_good &= is_answered(agent, 10**6 + len(RUDE)) and running == 0 and after - before <= options.slack * 1024
    print("afterwards: running %d, parked %d, memory %d KiB, before %d KiB" % (running, parked, after, before))
    return is_good


def main():
    words = argparse.ArgumentParser(description=__doc__, formatter_class=argparse.RawDescriptionHelpFormatter)
    words.add_argument("--program", default=str(ROOT / "yefontsila"))
    words.add_argument("--seconds", type=int, default=60, help="of random bytes")
    words.add_argument("--seed", type=int, default=1)
    words.add_argument("--slack", type=int, default=16, help="MiB by which memory may have grown")
    options = words.parse_args()
    with tempfile.TemporaryDirectory() as folder:
        agent = Agent(options.program, folder)
        try:
            is_good = tried(agent, options)
        finally:
            agent.end()
    print("all is as it was" if is_good else "NOT all is as it was")
    return 0 if is_good else 1


if __name__ == "__main__":
    sys.exit(main())
