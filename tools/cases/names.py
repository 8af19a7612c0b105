"""Cases of the names of the rule language, from the lists in seclang.py."""

import sys

import seclang
from case_words import line, write

HEAD = """Names of the rule language, read in any case: the canonical name, and for a variable whether it is
single or a collection; `none` for another word.
From the written lists of names: tools/cases/names.py and seclang.py."""


def swapped(word):
    return "".join(c.upper() if i % 2 else c.lower() for i, c in enumerate(word))


def forms(name):
    yield from (name, name.lower(), name.upper(), swapped(name))


def cases():
    kinds = [(n, "single") for n in seclang.SINGLE] + [(n, "collection") for n in seclang.COLLECTIONS]
    for name, kind in kinds:
        for form in forms(name):
            yield line("variable", form.encode(), name, kind)
    for other, name in seclang.OTHER_VARIABLES.items():
        for form in forms(other):
            yield line("variable", form.encode(), name, "single")
    for name in seclang.OPERATORS:
        for form in forms(name):
            yield line("operator", form.encode(), name)
    for name in seclang.TRANSFORMATIONS:
        for form in forms(name):
            yield line("transformation", form.encode(), name)
    for other, name in seclang.OTHER_TRANSFORMATIONS.items():
        for form in forms(other):
            yield line("transformation", form.encode(), name)
    for name in ("On", "Off", "DetectionOnly"):
        for form in forms(name):
            yield line("engine", form.encode(), name)
    for name in ("URLENCODED", "XML"):
        for form in forms(name):
            yield line("processor", form.encode(), name)
    for kind in ("variable", "operator", "transformation", "engine", "processor"):
        for word in (b"", b"x", b" On", b"\xff", b"none", b"ARGS ", b"ARG", b"ARGSS", b"@rx", b"rx ", b"trim:"):
            yield line(kind, word, "none")
    for name in seclang.REFUSED_VARIABLES + ["TIME", "TIME_HOUR", "PERF_ALL", "REMOTE_ADDRESS", "TX:a"]:
        yield line("variable", name.encode(), "none")
    for name in seclang.REFUSED_OPERATORS + list(seclang.FILE_OPERATORS):
        yield line("operator", name.encode(), "none")
    for name in seclang.REFUSED_TRANSFORMATIONS:
        yield line("transformation", name.encode(), "none")
    for name in ("JSON", "MULTIPART", "PLAIN"):
        yield line("processor", name.encode(), "none")


if __name__ == "__main__":
    write(sys.argv[1], HEAD, cases())
