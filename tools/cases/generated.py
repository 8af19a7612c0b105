#!/usr/bin/env python3
"""Writes to commands.txt what `generate` prints for several seeds: the requests, responses and expiries of each script are
followed by hand, as one table of what is parked; the program has no part in it."""

import os

from case_text import DATA, line

MARK = b"# scripts that are made: what became of each request was followed by a model of the table\n"
LIFE, SHARDS, WAITING = 500, 4, 4


def draws(seed):
    state = seed
    while True:
        state = (state * 6364136223846793005 + 1442695040888963407) % 2**64
        yield state // 2**33


def counts(seed, count):
    """What a script comes to. `parked` has, for each transaction that waits, when it is due and the ticket of its row."""
    numbers, moment, tickets, parked = draws(seed), 0, [0] * SHARDS, {}
    denied = failed = judged = expired = 0
    for i in range(1, count + 1):
        _, method, _, back, status, pause = (next(numbers) for _ in range(6))
        shard = sum(b"t%d" % i) % SHARDS
        tickets[shard] += 1
        if method % 4 == 1:
            denied += 1
        else:
            parked[i] = moment + LIFE, tickets[shard]
        moment += pause % 100
        answered = i - min(i - 1, back % WAITING)
        if parked.pop(answered, None):
            judged += 1
            failed += status % 5 == 0
        due = [(when, name) for name, when in parked.items() if sum(b"t%d" % name) % SHARDS == i % SHARDS and when[0] <= moment]
        if due:
            del parked[min(due)[1]]
            expired += 1
    return [("transactions", count), ("requests denied", denied), ("responses denied", failed),
            ("not parked", count - judged), ("expired", expired), ("acks", 2 * count)]


def cases():
    yield MARK
    for seed, count in (1, 1), (1, 2), (0, 40), (2, 40), (7, 200), (2**64 - 1, 300), (5, 500):
        text = "".join("%s %d\n" % each for each in counts(seed, count)).encode()
        yield line(b"generate\n%d\n%d" % (seed, count), b"", b"", "-", 0, text).encode() + b"\n"
    yield line(b"generate\n1\n1", b"", b"", "w0", 5, b"").encode() + b"\n"


def main():
    path = os.path.join(DATA, "commands.txt")
    with open(path, "rb") as file:
        before, mark, after = file.read().partition(MARK)
    assert mark
    rest = after.split(b"\n")
    while rest and rest[0].startswith(b'"generate\\x0a'):
        del rest[0]
    with open(path, "wb") as file:
        file.write(before + b"".join(cases()) + b"\n".join(rest))


if __name__ == "__main__":
    main()
