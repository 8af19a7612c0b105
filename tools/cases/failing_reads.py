#!/usr/bin/env python3
"""Writes to commands.txt what `once` prints where its input breaks off after each byte, and where one read of it or one
write fails, for each read and write: what was answered until then is written."""

import os

from case_text import DATA, line
from protocol import ack_bytes, agent_hello, control_frame, frame_bytes, message_bytes

MARK = b"# a read that fails while the input comes byte by byte"

RULES = b"SecRule REQUEST_METHOD \"@streq POST\" \"id:100,phase:1,deny\"\n"

OFFER = control_frame(1, [(b"supported-versions", ("text", b"2.0")), (b"max-frame-size", ("uint32", 16380)),
                          (b"capabilities", ("text", b"pipelining"))])
ASKED = frame_bytes(3, 1, 7, 1, message_bytes(b"coraza-req", [(b"id", ("text", b"a1")), (b"method", ("text", b"GET"))]))
DENIED = frame_bytes(3, 1, 7, 2, message_bytes(b"coraza-req", [(b"id", ("text", b"a2")), (b"method", ("text", b"POST"))]))

# What answers these three.
HELLO = agent_hello(16380, True)
PASSES = ack_bytes(7, 1, [(b"id", ("text", b"a1"))])
DENIES = ack_bytes(7, 2, [(b"id", ("text", b"a2")), (b"action", ("text", b"deny")), (b"status", ("uint32", 403)),
                          (b"ruleid", ("uint32", 100))])


def answered(taken):
    """What answers so many bytes of the three frames."""
    ends = (len(OFFER), len(OFFER + ASKED), len(OFFER + ASKED + DENIED))
    return b"".join(told for end, told in zip(ends, (HELLO, PASSES, DENIES)) if taken >= end)


def row(rules, told, failing, status, written):
    return line(b"once\nrules", b"rules\0" + rules, told, failing, status, written).encode() + b"\n"


def breaks():
    """Each prefix of an offer and a request as the whole input: only where it ends between two frames is the work done."""
    told = OFFER + ASKED
    for length in range(len(told) + 1):
        status = 0 if length in (0, len(OFFER), len(told)) else 1
        yield row(RULES, told[:length], "-", status, answered(length))


def reads():
    """Two requests in pieces of 40 bytes, the last of them shorter; the read behind the last piece finds the end."""
    told = OFFER + ASKED + DENIED
    pieces = -(-len(told) // 40)
    for place in range(pieces + 2):
        fails = place <= pieces
        yield row(RULES, told, "r%d,s40" % place, 4 if fails else 0, answered(min(place * 40, len(told))))


def writes():
    """Two requests, of whose three answers the first, the second, the third or none is not taken."""
    told = OFFER + ASKED + DENIED
    for place in range(4):
        yield row(RULES, told, "w%d" % place, 5 if place < 3 else 0, b"".join((HELLO, PASSES, DENIES)[:place]))


def tables():
    yield b"# an input that ends after each byte; a read, and a write, that fails while two requests are asked\n"
    for table in (breaks, reads, writes):
        yield from table()


def cases():
    yield MARK + b": the HELLO has %d bytes, the request %d, and the last read is\n" % (len(OFFER), len(ASKED))
    yield b"# that of the end; there is none behind it\n"
    told = OFFER + ASKED
    for place in range(len(told) + 2):
        written = agent_hello(16380, True) if place >= len(OFFER) else b""
        written += ack_bytes(7, 1, [(b"id", ("text", b"a1"))]) if place >= len(told) else b""
        yield line(b"once\nnone", b"none\0", told, "r%d,s1" % place, 4 if place <= len(told) else 0, written).encode() + b"\n"


def main():
    path = os.path.join(DATA, "commands.txt")
    with open(path, "rb") as file:
        before, mark, after = file.read().partition(MARK)
    assert mark
    rest = after.split(b"\n")[2:]
    while rest and rest[0].startswith((b'"once\\x0anone"', b"# an input that ends after each byte", b'"once\\x0arules"')):
        del rest[0]
    with open(path, "wb") as file:
        file.write(before + b"".join(cases()) + b"".join(tables()) + b"\n".join(rest))


if __name__ == "__main__":
    main()
