#!/usr/bin/env python3
"""Writes crates/cases/stdout: how many cases each file of crates/cases/args has."""

import os

from case_text import DATA

CRATE = os.path.join(DATA, "..")

if __name__ == "__main__":
    with open(os.path.join(CRATE, "args")) as names, open(os.path.join(CRATE, "stdout"), "w") as out:
        for name in names.read().split():
            with open(os.path.join(DATA, name), "rb") as lines:
                count = sum(1 for line in lines.read().split(b"\n") if line and not line.startswith(b"#"))
            out.write("%s: %d cases\n" % (name, count))
