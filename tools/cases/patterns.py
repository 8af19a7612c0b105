"""Cases of patterns. Whether a name is selected is what Python's `re` says of patterns that both read in
one way; which rules are refused is worked out by hand."""

import random
import re
import sys

from case_words import line, write

HEAD = """Patterns. `selects PATTERN NAME`: whether the pattern has a match in the name, whatever its case, or
`BadPattern`. `rules TEXT FILE`: `built`, or the file, the line and the identifier of the first rule with a
bad pattern, which `compile`, `plain_judge` and `plain_phase` must tell alike.
Matches by Python's re, and the rest by hand: tools/cases/patterns.py."""

DRAW = random.Random(23)

GOOD = [b"", b"a", b"^a", b"a$", b"^ab$", b"^(?:a|b)$", b"[a-c]x", b"[^a]", b"a.c", b"a+b*", b"(a)(b)?", b"x{2}", b"x{2,3}y", b"\\.", b"\\d+", b"\\w",
        b"\\s", b"__utm", b"^_?id$", b"a|", b"(?:ab)+c", b"[.]", b"[]a]", b"\\x41", b"^$", b"B", b"^.{3}$", b"(?i)a"]

NAMES = [b"", b"a", b"A", b"ab", b"AB", b"abc", b"xx", b"xxy", b"x", b"b", b"cX", b"a.c", b"A\nC", b"__UTMz", b"id", b"_ID", b"12", b"ABABC", b"]", b"-"]

BAD = [b"(", b")", b"[", b"a{", b"*", b"+a", b"?", b"a**?+{", b"(?P<n>", b"\\", b"\\8", b"a{2", b"x{3,2}", b"[z-a]", b"(?<=a)", b"(?=a)", b"\\1", b"(a)\\1", b"[a", b"(?z)",
       b"\\p{Foo}", b"(?P<1>a)", b"\\xg", b"(a", b"a)"]

RULE = 'SecRule ARGS "@rx %s" id:%d\n'


def bad_rules():
    good = RULE % ("a", 1)
    for bad in ("(", "[", "a{", "*", "(?=a)"):
        second = RULE % (bad, 2)
        third = RULE % ("b", 3)
        yield good + second + third, 2, 2
        yield good + third + second, 3, 2
        yield second + third, 1, 2
        yield good + "# note\n\n" + second + RULE % (bad, 4), 4, 2
    # in a later link, and in a target that selects or excludes
    chain = "SecRule ARGS a id:5,chain\nSecRule TX \"@rx (\"\n"
    yield good + chain + RULE % ("b", 3), 2, 5
    yield good + "SecRule ARGS a id:5,chain\nSecRule TX:/(/ a\n" + RULE % ("b", 3), 2, 5
    yield good + "SecRule ARGS|!ARGS:/b{/ a id:6\n" + RULE % ("(", 3), 2, 6
    yield good + "SecRule ARGS:/(/ a id:6\n", 2, 6
    yield good + "SecRule &ARGS:/(/ a id:6\n", 2, 6
    yield good + "SecRule \"ARGS:'/[/ '\" a id:6\n", 2, 6
    yield "SecMarker A\n" + good + "SecMarker B\nSecRule ARGS \"!@rx (\" \"id:7,phase:5\"\n", 4, 7
    yield "SecRuleEngine Off\n" + good + RULE % ("(", 2) + RULE % ("b", 3), 3, 2
    # by bytes: a pattern without a wording, and one whose wording has no reading
    for bad in ("a(?=b)", "a++", "[a", "(a", "*", "b{3,2}"):
        yield good + "SecRule ARGS \"@rxBytes %s\" id:2\n" % bad + RULE % ("(", 3), 2, 2
        yield "SecPatternMode Bytes\n" + good + RULE % (bad, 2) + RULE % ("b", 3), 3, 2
    yield "SecPatternMode Bytes\n" + good + "SecRule ARGS:/a{/ a id:2\n", 3, 2
    yield "SecPatternMode Bytes\n" + good + "SecPatternMode Unicode\n" + RULE % ("a{", 2), 4, 2


def good_rules():
    yield ""
    yield "SecMarker A"
    yield "".join(RULE % (p, n) for n, p in enumerate(("a", "(a)", "^b$"), 1))
    yield "SecRule ARGS:( a id:1"
    yield "SecRule ARGS:'[' \"@streq (\" id:1"
    yield "SecRule XML:/( \"@pm (\" id:1"
    yield "SecRule ARGS \"@contains (\" id:1"
    yield "SecRuleRemoveById 2\n" + RULE % ("a", 1) + RULE % ("(", 2)
    yield "SecRule ARGS:/^ab$/|!ARGS:/x/|&TX:/y/ \"@rx x(.)z\" id:1"
    yield "SecRule ARGS \"\" id:1"
    yield "SecRule ARGS \"@rxBytes a{|}|[[b]|\\<\" id:1"
    yield "SecPatternMode Bytes\n" + RULE % ("a{", 1) + RULE % ("\\h", 2) + "SecRule ARGS \"\" id:3"
    yield "SecRule ARGS @rx id:1"


def cases():
    for pattern in GOOD:
        for name in NAMES:
            hit = re.search(pattern, name, re.I | re.S) is not None
            yield line("selects", pattern, name, "yes" if hit else "no")
    for pattern in BAD:
        yield line("selects", pattern, b"a", "BadPattern")
    yield line("selects", b"\xff", b"a", "BadPattern")
    for text in good_rules():
        yield line("rules", text.encode(), b"a.conf", "built")
    for text, number, rule in bad_rules():
        yield line("rules", text.encode(), b"d/a.conf", "BadPattern", b"d/a.conf", number, rule)
    text = b"@@ d/a\nSecRule ARGS a id:1\nInclude b\nSecRule ARGS ( id:3\n@@ d/b\n\nSecRule ARGS ( id:2"
    yield line("rules", text, b"d/a", "BadPattern", b"d/b", 2, 2)


if __name__ == "__main__":
    write(sys.argv[1], HEAD, cases())
