"""Cases of the lines of a text of rules, and of the words of a line, by the model in seclang.py."""

import random
import sys

import seclang
from case_words import line, write

HEAD = """The text of rules. `lines TEXT`: the number and the text of each logical line, or the fault and its
line. `words TEXT`: the words of a line, or the fault. `quoted TEXT`: the text up to its closing quote
and the rest behind that, or `open`.
The answers are those of a model in Python of the written rules: tools/cases/lines.py."""

DRAW = random.Random(11)

PIECES = [b"a", b"b c", b"\\", b"\\", b"\n", b"\n", b"\r\n", b" ", b"\t", b"#", b'"', b'\\"', b"\xc3\xa4"]

WORD_PIECES = [b"a", b"bc", b" ", b"  ", b"\t", b'"', b'"', b'\\"', b"\\", b"'", b"#", b"\r", b"\xff"]


def lines_case(text):
    try:
        found = seclang.lines(text)
    except seclang.Fault as fault:
        return line("lines", text, fault.kind, fault.word)
    return line("lines", text, *[word for one in found for word in one])


def words_case(text):
    try:
        return line("words", text, *seclang.words(text))
    except seclang.Fault as fault:
        return line("words", text, fault.kind)


def quoted_case(text):
    end = seclang.closing(b'"' + text, 1, b'"')
    if end is None:
        return line("quoted", text, "open")
    return line("quoted", text, text[: end - 1].replace(b'\\"', b'"'), text[end:])


def drawn(pieces, most):
    return b"".join(DRAW.choice(pieces) for _ in range(DRAW.randint(1, most)))


TEXTS = [
    b"", b"\n", b"\n# only\n \t\r\n", b"  a b\t\r\nc", b"a\\\n  b\\\r\n\tc\nd", b"# not \\\nthis",
    b"a\\\n# b\nc", b"a\\\n\nb", b"\\\n\\\n\nx", b"a\\", b"a\\\\\nb", b"a \\\n b", b"caf\xc3\xa9",
    b"a\\ \nb", b"a\\\r\nb", b"\\", b"\\\n", b" \\ \n\\\n", b"#\\\n#", b"a#b", b"a\rb", b"a\x00b", b"\x0ca",
    b"a\nb\xffc", b"\xc3\n", b"ok\n\xed\xa0\x80", b"a\n\n\xc3", b"\xf4\x90\x80\x80", b"\xf4\x8f\xbf\xbf",
    b"\xc0\x80", b"\n\xe2\x82", b"\xe2\x82\xac\n\x80", b"a\\\nb\xff", b"\xef\xbb\xbfa", b"\xf8\x88\x80\x80\x80",
    b"\xe0\x80\x80", b"\xe0\xa0\x80", b"\xf0\x8f\xbf\xbf", b"\xf0\x90\x80\x80", b"a\n\xf0\x9f\x98",
]

WORDS = [
    b"", b" \t", b"a  b\t", b'""', b'"a b"\tc', b'"a\\\\" b"', b'"a\\n\\""', b"a\\b", b'a "b', b'"a\\"',
    b'"a" "', b'"a"b', b'a"b "c', b"a\\ b", b"\\", b'"\\', b'"', b'"a"', b'" "', b'"" ""', b'""""',
    b"'a b'", b'\\"a', b'a\\"', b'"a\\\\"', b'"\\""', b"a \\", b"SecMarker #a", b'x "y z" "\xff"', b"a\r b",
    b'"a"\r', b'"a" b"', b'a"', b'"a\\', b'"a\tb"\t"c"',
]


def cases():
    for text in TEXTS:
        yield lines_case(text)
    for _ in range(140):
        yield lines_case(drawn(PIECES, 9))
    for text in WORDS:
        yield words_case(text)
        yield quoted_case(text)
    for _ in range(160):
        yield words_case(drawn(WORD_PIECES, 8))
    for _ in range(60):
        yield quoted_case(drawn(WORD_PIECES, 6))


if __name__ == "__main__":
    write(sys.argv[1], HEAD, cases())
