#!/usr/bin/env python3
"""Cases of `rxBytes`. What a pattern finds is what libpcre2 finds with the options that libmodsecurity 3
compiles patterns with; where this agent differs from PCRE on purpose, the answer stands here by hand,
after a comment that begins with `differs:`.

    python3 tools/cases/operators_bytes.py             writes the case file
    python3 tools/cases/operators_bytes.py --compare   asks libmodsecurity, in rules, for each case of it

Either needs the shared library that it asks, and no more: libpcre2-8.so.0, libmodsecurity.so.3."""

import ctypes
import os
import re
import sys

from case_text import DATA, line, write

NAME = "operators_bytes.txt"

HEAD = """OPERATOR ARGUMENT VALUE no, or yes and the text of each group ('-' for one that took no part), or bad for a
pattern that has no wording. What each pattern shows stands above it. Matches by libpcre2 with PCRE2_DOTALL and
PCRE2_MULTILINE, and what differs from it by hand: tools/cases/operators_bytes.py."""

# --- what is shown, the pattern, and values ---

MARKS = b"<>\"'/-_#%&@!,:;=`~ "

PATTERNS = [("an escaped mark is the byte itself", b"a\\" + bytes([m]) + b"z", [b"a" + bytes([m]) + b"z", b"az", b"a\\" + bytes([m]) + b"z"]) for m in MARKS] + [
    ("a negated class takes a stray byte", b"<script[^>]*>", [b"<script\xff>", b"<script>", b"<script x"]),
    ("a dot takes a stray byte and line ends", b"^a.b$", [b"a\xffb", b"a\nb", b"a\rb", b"ab", b"a\xc3\xa9b"]),
    ("a byte of a letter outside ASCII is no word's byte", b"\\bselect\\b", [b"\xc3\xa9select", b"select\xe9", b"aselect", b"SELECT"]),
    ("a brace that begins no repetition is a byte", b"a{b", [b"a{b", b"ab", b"a"]),
    ("so is one before a comma", b"a{,3}b", [b"a{,3}b", b"aab", b"b"]),
    ("and one that nothing closes", b"a{2", [b"a{2", b"aa"]),
    ("a brace with no opening one is a byte", b"^a}$", [b"a}", b"a"]),
    ("a repetition of so many", b"^a{2}$", [b"aa", b"a", b"aaa", b"a{2}"]),
    ("of at least so many", b"^a{2,}$", [b"aaa", b"a", b"a{2,}"]),
    ("of so many to so many, lazily", b"(a{1,2}?)(a*)", [b"aaa", b"", b"b"]),
    ("a bracket in a class is a byte", b"^[[a]+$", [b"[a[", b"]", b"b"]),
    ("a POSIX class stays one", b"^[[:alpha:]_]+$", [b"aZ_", b"a1", b"[:", b"\xe9"]),
    ("two ampersands in a class are bytes", b"^[a-c&&b]+$", [b"a&c", b"b", b"d"]),
    ("two hyphens in a class begin or end a range", b"^[+--]+$", [b"+,-", b".", b"*"]),
    ("two tildes in a class are bytes", b"^[a-c~~b]+$", [b"a~c", b"d", b""]),
    ("a closing bracket at the front of a class is a byte", b"^[]a]+$", [b"]a", b"[", b"b"]),
    ("a backspace in a class", b"[\\b]", [b"\x08", b"b", b" "]),
    ("a byte of 128 and more", b"caf\xe9", [b"caf\xe9", b"caf\xc3\xa9", b"caf"]),
    ("a letter of two bytes", b"caf\xc3\xa9", [b"caf\xc3\xa9", b"caf\xe9"]),
    ("a range of bytes of 128 and more", b"^[\x80-\xff]+$", [b"\x80\xff", b"\x7f", b"\xc3\xa9"]),
    ("a number of a byte", b"\\xe9", [b"\xe9", b"\xc3\xa9", b"xe9"]),
    ("a number of a byte in braces", b"\\x{E9}", [b"\xe9", b"\xc3\xa9", b"x"]),
    ("an octal number", b"^\\012\\0$", [b"\n\x00", b"012"]),
    ("digits are those of ASCII", b"^\\d+$", [b"09", b"\xd9\xa3", b"a"]),
    ("word bytes are those of ASCII", b"^\\w+$", [b"aZ_9", b"\xe9", b"a b"]),
    ("white space is that of ASCII", b"^\\s+$", [b" \t\n\x0b\x0c\r", b"\x85", b"\xa0", b"a"]),
    ("all but digits, word bytes and white space take every byte from 128 on", b"^\\D\\W\\S$", [b"\xff\xff\xff", b"a b", b"a-b", b"1-b"]),
    ("the case of ASCII letters is folded", b"(?i)^sel\xe9ct$", [b"SEL\xe9CT", b"sel\xc9ct", b"sel\xe9ct"]),
    ("the case of a class is folded", b"(?i)^[a-c\xe0]+$", [b"ABC", b"\xc0", b"\xe0", b"D"]),
    ("blanks", b"^\\h$", [b" ", b"\t", b"h", b"\n"]),
    ("blanks in a class", b"^[\\h,]+$", [b" ,\t", b"h", b"\x0b"]),
    ("vertical spaces", b"^\\v$", [b"\n", b"\x0b", b"\x0c", b"\r", b"\x85", b" "]),
    ("line ends", b"^a\\Rb$", [b"a\nb", b"a\r\nb", b"a\rb", b"a\x85b", b"a\x0bb", b"a\n\nb", b"a b"]),
    ("a caret stands after each line feed", b"^b", [b"b", b"a\nb", b"a\rb", b"ab"]),
    ("a dollar stands before each line feed", b"a$", [b"a", b"a\n", b"a\nb", b"a\r\nb", b"ab"]),
    ("the two ends of the value", b"\\Aa\\z", [b"a", b"a\n", b"\na", b"b\na"]),
    ("flags that end with their group", b"a(?i:b)c", [b"aBc", b"aBC", b"abc"]),
    ("a dot that takes no line feed", b"a(?-s:.)b", [b"a\xffb", b"a\nb"]),
    ("groups that took no part", b"(a)|(b)(?<n>c)?", [b"a", b"b", b"bc", b"c"]),
    ("lazy repetitions", b"<(.+?)>(.*)", [b"<a>b>", b"<>"]),
]

# what PCRE reads or finds, and this agent does not
DIFFERENCES = [
    ("\\h is blank or tab; to PCRE it is the byte A0 too", b"\\h", [(b"\xa0", ["no"])]),
    ("a caret stands after a line feed that ends the value too", b"^$", [(b"a\n", ["yes", b""])]),
    ("and what was found before goes on there", b"a\\n^", [(b"a\n", ["yes", b"a\n"])]),
    ("CR LF may be parted after \\R", b"^\\R\\n$", [(b"\r\n", ["yes", b"\r\n"])]),
    ("a repetition of a repetition, which PCRE refuses", b"^a**$", [(b"aa", ["yes", b"aa"])]),
    ("without (?m) a dollar stands at the end of the value alone", b"(?-m)a$", [(b"a\n", ["no"])]),
] + [("has no wording: " + what, pattern, [(value, ["bad"])]) for what, pattern, value in [
    ("look-ahead", b"a(?=b)", b"ab"),
    ("negative look-ahead", b"a(?!b)", b"ac"),
    ("look-behind", b"(?<=a)b", b"ab"),
    ("negative look-behind", b"(?<!a)b", b"cb"),
    ("a backreference", b"(a)\\1", b"aa"),
    ("a reset of the start", b"a\\Kb", b"ab"),
    ("a possessive repetition", b"a++b", b"aab"),
    ("a possessive count", b"a{2}+b", b"aab"),
    ("an atomic group", b"(?>a|ab)c", b"ac"),
    ("a comment", b"a(?#b)", b"a"),
    ("the flag x", b"(?x)a b", b"ab"),
    ("a text as it stands", b"\\Qa.\\E", b"a."),
    ("an octal number without a zero before it", b"\\101", b"A"),
    ("an escape of PCRE alone", b"\\Aa\\Z", b"a"),
]]

# neither PCRE nor this agent
REFUSED = [("an open class", b"[a"), ("an open group", b"(a"), ("nothing to repeat", b"*a"), ("a range that runs backwards", b"[b-a]"), ("a backslash at the end", b"a\\"),
           ("a number of two bytes", b"\\x{100}"), ("a class of no known name", b"[[:foo:]]"), ("an unknown escape", b"\\y")]


# --- libpcre2 ---

class Pcre:
    DOTALL, MULTILINE, UNSET = 0x20, 0x400, ctypes.c_size_t(-1).value

    def __init__(self):
        self.lib = ctypes.CDLL("libpcre2-8.so.0")
        self.lib.pcre2_compile_8.restype = ctypes.c_void_p
        self.lib.pcre2_compile_8.argtypes = [ctypes.c_char_p, ctypes.c_size_t, ctypes.c_uint32, ctypes.c_void_p, ctypes.c_void_p, ctypes.c_void_p]
        self.lib.pcre2_match_data_create_from_pattern_8.restype = ctypes.c_void_p
        self.lib.pcre2_match_data_create_from_pattern_8.argtypes = [ctypes.c_void_p, ctypes.c_void_p]
        self.lib.pcre2_get_ovector_count_8.argtypes = [ctypes.c_void_p]
        self.lib.pcre2_get_ovector_pointer_8.restype = ctypes.POINTER(ctypes.c_size_t)
        self.lib.pcre2_get_ovector_pointer_8.argtypes = [ctypes.c_void_p]
        self.lib.pcre2_match_8.argtypes = [ctypes.c_void_p, ctypes.c_char_p, ctypes.c_size_t, ctypes.c_size_t, ctypes.c_uint32, ctypes.c_void_p, ctypes.c_void_p]

    def find(self, pattern, value):
        """The wanted words of a case."""
        code, place = ctypes.c_int(), ctypes.c_size_t()
        compiled = self.lib.pcre2_compile_8(pattern, len(pattern), self.DOTALL | self.MULTILINE, ctypes.byref(code), ctypes.byref(place), None)
        if not compiled:
            return ["bad"]
        found = self.lib.pcre2_match_data_create_from_pattern_8(compiled, None)
        if self.lib.pcre2_match_8(compiled, value, len(value), 0, 0, found, None) < 0:
            return ["no"]
        ends = self.lib.pcre2_get_ovector_pointer_8(found)
        spans = [(ends[2 * k], ends[2 * k + 1]) for k in range(self.lib.pcre2_get_ovector_count_8(found))]
        return ["yes"] + ["-" if a == self.UNSET else value[a:b] for a, b in spans]


def cases():
    pcre = Pcre()
    for what, pattern, values in PATTERNS:
        yield "# " + what
        for value in values:
            yield line("rxBytes", pattern, value, *pcre.find(pattern, value))
    for what, pattern in REFUSED:
        assert pcre.find(pattern, b"") == ["bad"] or pattern == b"\\x{100}" or pattern == b"\\y", pattern
        yield "# " + what
        yield line("rxBytes", pattern, b"a", "bad")
    for what, pattern, answers in DIFFERENCES:
        yield "# differs: " + what
        for value, wanted in answers:
            assert pcre.find(pattern, value) != wanted, (pattern, value)
            yield line("rxBytes", pattern, value, *wanted)


# --- libmodsecurity ---

class Intervention(ctypes.Structure):
    _fields_ = [("status", ctypes.c_int), ("pause", ctypes.c_int), ("url", ctypes.c_void_p), ("log", ctypes.c_void_p), ("disruptive", ctypes.c_int)]


class ModSecurity:
    LOG = ctypes.CFUNCTYPE(None, ctypes.c_void_p, ctypes.c_void_p)

    def __init__(self):
        lib = self.lib = ctypes.CDLL("libmodsecurity.so.3")
        pointer, text, size = ctypes.c_void_p, ctypes.c_char_p, ctypes.c_size_t
        for name, result, given in [
            ("msc_init", pointer, []), ("msc_set_log_cb", None, [pointer, self.LOG]),
            ("msc_create_rules_set", pointer, []), ("msc_rules_add", ctypes.c_int, [pointer, text, pointer]), ("msc_rules_cleanup", ctypes.c_int, [pointer]),
            ("msc_new_transaction", pointer, [pointer] * 3), ("msc_process_uri", ctypes.c_int, [pointer, text, text, text]),
            ("msc_add_n_request_header", ctypes.c_int, [pointer, text, size, text, size]), ("msc_process_request_headers", ctypes.c_int, [pointer]),
            ("msc_intervention", ctypes.c_int, [pointer, pointer]), ("msc_transaction_cleanup", None, [pointer]),
        ]:
            getattr(lib, name).restype, getattr(lib, name).argtypes = result, given
        self.one = lib.msc_init()
        self.quiet = self.LOG(lambda data, message: None)
        lib.msc_set_log_cb(self.one, self.quiet)

    def find(self, pattern, value):
        """yes or no, or bad where the rule is not read."""
        rules, fault = self.lib.msc_create_rules_set(), ctypes.c_char_p()
        rule = b'SecRuleEngine On\nSecRule REQUEST_HEADERS:X "@rx %s" "id:1,phase:1,t:none,deny,status:403"\n' % re.sub(rb'(?<!\\)"', rb'\\"', pattern)
        if self.lib.msc_rules_add(rules, rule, ctypes.byref(fault)) < 0:
            return "bad"
        one = self.lib.msc_new_transaction(self.one, rules, None)
        self.lib.msc_process_uri(one, b"/", b"GET", b"1.1")
        self.lib.msc_add_n_request_header(one, b"X", 1, value, len(value))
        self.lib.msc_process_request_headers(one)
        answer = Intervention(200, 0, None, None, 0)
        self.lib.msc_intervention(one, ctypes.byref(answer))
        self.lib.msc_transaction_cleanup(one)
        self.lib.msc_rules_cleanup(rules)
        return "yes" if answer.status == 403 else "no"


def plain(word):
    return re.sub(rb"\\(x[0-9a-f]{2}|.)", lambda m: bytes([int(m[1][1:], 16)]) if m[1][:1] == b"x" else {b"n": b"\n", b"r": b"\r", b"t": b"\t"}.get(m[1], m[1]), word)


def compare():
    other = ModSecurity()
    agreed, documented, differing, differs = 0, 0, 0, False
    with open(os.path.join(DATA, NAME), "rb") as cases:
        for one in cases.read().split(b"\n"):
            if one.startswith(b"#"):
                differs = one.startswith(b"# differs:")
            elif one:
                # (no quoted word of a rule ends with a lone backslash)
                if one.startswith(b'rxBytes "a\\\\" '):
                    continue
                pattern, value = [plain(w) for w in re.findall(rb'"((?:[^"\\]|\\.)*)"', one)[:2]]
                wanted = re.fullmatch(rb'rxBytes "(?:[^"\\]|\\.)*" "(?:[^"\\]|\\.)*" (yes|no|bad).*', one)[1].decode()
                got = other.find(pattern, value)
                # a rule whose pattern libpcre2 does not read is one that libmodsecurity never holds for
                if got == wanted or (wanted == "bad" and not differs and got == "no"):
                    agreed += 1
                elif differs:
                    documented += 1
                else:
                    differing += 1
                    print("libmodsecurity: %s for %s" % (got, one.decode()))
    print("%d agree, %d differ as documented, %d differ" % (agreed, documented, differing))
    return differing


if __name__ == "__main__":
    if sys.argv[1:] == ["--compare"]:
        sys.exit(1 if compare() else 0)
    write(NAME, HEAD, list(cases()))
