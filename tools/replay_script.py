#!/usr/bin/env python3
"""Writes a script for `yefontsila replay` from recorded streams: what HAProxy sent on one connection each.

    replay_script.py [--tick M] STREAM ..

The first stream is connection 0, the next 1, and so on. Their frames are fed in turn, one of each connection at a time,
each with as many acts as it can take; M units of time go by after each turn. A frame that was cut off is fed as it is.
"""

import argparse


def frames(stream):
    """The frames of a stream, with their lengths (SPOE.txt, 3.2): four bytes, the highest first."""
    while stream:
        size = 4 + int.from_bytes(stream[:4], "big")
        yield stream[:size]
        stream = stream[size:]


def acts(frame):
    """As many acts as are surely enough: five for each message of the two that are judged, and two for the answer."""
    return 5 * (frame.count(b"coraza-req") + frame.count(b"coraza-res")) + 2


def main():
    parser = argparse.ArgumentParser(description=__doc__, formatter_class=argparse.RawDescriptionHelpFormatter)
    parser.add_argument("streams", nargs="+", metavar="STREAM", type=argparse.FileType("rb"))
    parser.add_argument("--tick", type=int, default=0, metavar="M")
    options = parser.parse_args()
    waiting = [(conn, frames(file.read())) for conn, file in enumerate(options.streams)]
    for conn, _ in waiting:
        print("open %d" % conn)
    while waiting:
        left = []
        for conn, rest in waiting:
            frame = next(rest, None)
            if frame is None:
                print("end %d\nact %d" % (conn, conn))
                continue
            print("feed %d %s" % (conn, frame.hex()))
            print("\n".join(["act %d" % conn] * acts(frame)))
            left.append((conn, rest))
        if options.tick and left:
            print("tick %d" % options.tick)
        waiting = left
    print("stats")


if __name__ == "__main__":
    main()
