#!/usr/bin/env python3
"""Writes the script that `yefontsila generate` plays: requests, responses and expiries that a seed decides.

    generate_script.py SEED COUNT

Sixteen connections are opened, and COUNT turns follow. The lines are those that `yefontsila replay` reads.
"""

import sys

CONNECTIONS = 16
SHARDS = 4


def draws(seed):
    """The numbers that a seed gives, one after the other."""
    state = seed
    while True:
        state = (state * 6364136223846793005 + 1442695040888963407) % 2**64
        yield state // 2**33


def varint(number):
    """The spelling of a number (SPOE.txt, 3.1)."""
    if number < 240:
        return bytes([number])
    spelled = bytes([number & 15 | 240])
    number = (number - 240) >> 4
    while number >= 128:
        spelled += bytes([number & 127 | 128])
        number = (number - 128) >> 7
    return spelled + bytes([number])


def text(value):
    """A text after its length."""
    return varint(len(value)) + value


def pair(name, value):
    """A name and its value: a STRING, or a UINT32 (SPOE.txt, 3.1)."""
    spelled = b"\x08" + text(value) if isinstance(value, bytes) else b"\x03" + varint(value)
    return text(name) + spelled


def frame(kind, stream, number, payload):
    """A frame with FIN alone, and the four bytes of its length (SPOE.txt, 3.2)."""
    body = bytes([kind]) + (1).to_bytes(4, "big") + varint(stream) + varint(number) + payload
    return len(body).to_bytes(4, "big") + body


def hello():
    """HAPROXY-HELLO."""
    pairs = [(b"supported-versions", b"2.0"), (b"max-frame-size", 16380), (b"capabilities", b"pipelining")]
    return frame(1, 0, 0, b"".join(pair(*each) for each in pairs))


def notify(stream, number, name, pairs):
    """A NOTIFY of one message."""
    payload = text(name) + bytes([len(pairs)]) + b"".join(pair(*each) for each in pairs)
    return frame(3, stream, number, payload)


def feed(conn, piece):
    return "feed %d %s" % (conn, piece.hex() or "-")


def turn(i, a, b, c, d, e, f):
    """The lines of a turn: a request that comes in two pieces, a pause, a response, and an expiry."""
    conn = a % CONNECTIONS
    method = b"POST" if b % 4 == 1 else b"GET"
    query = b"q=" + b"x" * (c % 1024)
    request = notify(
        i, 1, b"coraza-req", [(b"id", b"t%d" % i), (b"method", method), (b"path", b"/p"), (b"query", query)]
    )
    cut = f % len(request)
    yield feed(conn, request[:cut])
    yield feed(conn, request[cut:])
    yield from ["act %d" % conn] * 5
    yield "tick %d" % (f % 100)
    after = (conn + 1) % CONNECTIONS
    answered = i - min(i - 1, d % 4)
    status = 500 if e % 5 == 0 else 200
    yield feed(after, notify(i, 2, b"coraza-res", [(b"id", b"t%d" % answered), (b"status", status)]))
    yield from ["act %d" % after] * 3
    yield "expire %d" % (i % SHARDS)


def script(seed, count):
    """The lines of the whole script."""
    for conn in range(CONNECTIONS):
        yield from ["open %d" % conn, feed(conn, hello()), "act %d" % conn]
    numbers = draws(seed)
    for i in range(1, count + 1):
        yield from turn(i, *(next(numbers) for _ in range(6)))


def main():
    if len(sys.argv) != 3:
        sys.exit(__doc__)
    for line in script(int(sys.argv[1]), int(sys.argv[2])):
        print(line)


if __name__ == "__main__":
    main()
