"""Cases of configurations. The document is read by Python's `tomllib`, and the rest by the written
list of faults, in its order."""

import sys
import tomllib

from case_words import line, write

HEAD = """Configurations: TEXT, and what is read: size, capacity, shards, workers, listen, default or `none`, and
each application by its name, rules, `responses` or `requests`, and life; or the fault and its word.
The document is read by Python's tomllib (TOML 1.0, and by hand two texts of TOML 1.1), and the rest by the
written list of faults: tools/cases/configuration.py."""

TOP = ["size", "capacity", "shards", "workers", "listen", "default", "app"]
IN_APP = ["name", "rules", "responses", "life"]


class Fault(Exception):
    pass


def document(data):
    try:
        text = data.decode("utf-8")
        text = text[1:] if text.startswith("\ufeff") else text
        top = tomllib.loads(text)
    except (UnicodeDecodeError, tomllib.TOMLDecodeError):
        raise Fault("Syntax", b"")
    if any(not -(2**63) <= n < 2**63 for n in integers(top)):
        raise Fault("Syntax", b"")
    return top


def integers(value):
    if isinstance(value, dict):
        for one in value.values():
            yield from integers(one)
    elif isinstance(value, list):
        for one in value:
            yield from integers(one)
    elif type(value) is int:
        yield value


def unknown(table, known):
    for key in sorted(table, key=lambda k: k.encode()):
        if key not in known:
            raise Fault("UnknownKey", key.encode())


def bad(key):
    raise Fault("BadValue", key.encode())


def number(table, key, low, high, other):
    value = table.get(key, other)
    if type(value) is not int or not low <= value <= high:
        bad(key)
    return value


def text(table, key, low, high, controls):
    value = table[key]
    if type(value) is not str:
        bad(key)
    data = value.encode()
    if not low <= len(data) <= high or (not controls and any(b < 32 for b in data)):
        bad(key)
    return data


def application(table):
    name = text(table, "name", 0, 256, False)
    rules = table["rules"]
    if type(rules) is not list:
        bad("rules")
    for rule in rules:
        if type(rule) is not str or not 1 <= len(rule.encode()) <= 4096:
            bad("rules")
    responses = table.get("responses", False)
    if type(responses) is not bool:
        bad("responses")
    life = number(table, "life", 1, 86400000, 60000)
    return name, [rule.encode() for rule in rules], responses, life


def read(data):
    top = document(data)
    unknown(top, TOP)
    app = top.get("app")
    members = app if type(app) is list else []
    for one in members:
        if type(one) is dict:
            unknown(one, IN_APP)
    for one in members:
        if type(one) is dict:
            for key in ("name", "rules"):
                if key not in one:
                    raise Fault("MissingKey", key.encode())
    size = number(top, "size", 256, 65536, 16380)
    if "capacity" in top:
        number(top, "capacity", 1, 16384, None)
    shards = number(top, "shards", 1, 64, 1)
    workers = number(top, "workers", 1, 64, 64)
    listen = text(top, "listen", 1, 256, True) if "listen" in top else b"127.0.0.1:9000"
    default = text(top, "default", 0, 256, False) if "default" in top else None
    if app is not None:
        if type(app) is not list or len(app) > 64 or any(type(one) is not dict for one in app):
            bad("app")
    capacity = top.get("capacity", 16384 // shards)
    if capacity * shards > 16384:
        bad("capacity")
    apps = [application(one) for one in members]
    if not apps:
        raise Fault("NoApp", b"")
    names = [one[0] for one in apps]
    for at, name in enumerate(names):
        if name in names[:at]:
            raise Fault("DoubleApp", name)
    if default is not None and default not in names:
        raise Fault("UnknownDefault", default)
    return size, capacity, shards, workers, listen, default, apps


def case(data):
    data = data if isinstance(data, bytes) else data.encode()
    try:
        size, capacity, shards, workers, listen, default, apps = read(data)
    except Fault as fault:
        return line(data, *fault.args)
    out = [size, capacity, shards, workers, listen, "none" if default is None else default]
    for name, rules, responses, life in apps:
        out += ["app", name] + rules + ["responses" if responses else "requests", life]
    return line(data, *out)


APP = '\n[[app]]\nname = "a"\nrules = []\n'

TEXTS = [
    b"size", b"size = 1 2", b"size = 300\nsize = 300", b"size = 9223372036854775808", b'listen = "\xff"', b"=", b"[app", b"size = ",
    b"size = 01", b"size = +300", b"size = 1_000", b"size = 1__0", b"size = 0x1_00", b"size = 0o400", b"size = 0b100000000", b"size = 3e2",
    b"size = 300.0", b"size = inf", b"size = 1979-05-27", b"size = \"300\"", b"size = [300]", b"size = {}", b"size = true", b"# only\n",
    b"sise = 16380", b"b = 1\na = 1\nsize = 0", b"app = 1\nformat = 2", b"app = [7, { life = 1, z = 1, lane = 1 }]",
    b"app = [{ y = 1 }, { x = 1 }]\nz = 1", b"app = [{ y = 1 }, { x = 1 }]", b"Size = 300", b'"" = 1', b'"a b" = 1', b"a.b = 1",
    b"[size]", b"[[size]]", b"[app]", b"[app]\nname = \"a\"", b"[[app]]\nrules = []", b"[[app]]\nname = \"a\"", b"size = 1\napp = [7, {}]",
    b"app = [{ name = 1, rules = 1 }, {}]", b'app = [{ name = "\\n", rules = [] }]', b'app = [{ name = "", rules = [] }]',
    b"app = [{ name = 1, rules = 1 }]", b'app = [{ name = "a", rules = "b" }]', b'app = [{ name = "a", rules = ["b", ""] }]',
    b'app = [{ name = "a", rules = [1] }]', b'app = [{ name = "a", rules = [[]] }]', b"size = 0\ncapacity = 0", b"shards = 0\ncapacity = 0",
    b"app = 1\ndefault = 1", b"app = {}\ncapacity = 16384\nshards = 2", b"capacity = 16384\nshards = 2\napp = [{ name = 1, rules = 1 }]",
    b"size = 0\napp = [{ name = 1 }]", b'app = [{ name = "a", rules = 1 }, { name = 1, rules = [] }]', b"", b'app = []\ndefault = "a"',
    b'default = "b"\napp = [{ name = "a", rules = [] }]', b'default = ""\napp = [{ name = "a", rules = [] }]',
    b'default = ""\napp = [{ name = "", rules = [] }]',
    b'default = "c"\napp = [{ name = "a", rules = [] }, { name = "b", rules = [] }, { name = "b", rules = [] }, { name = "a", rules = [] }]',
    b'\xef\xbb\xbfshards = 3\n[[app]]\nname = "a"\nrules = []\n', b'\xef\xbb\xbf\xef\xbb\xbfshards = 3\n[[app]]\nname = "a"\nrules = []\n',
    b'size = 0x100\ncapacity = 7\nshards = 2\nworkers = 5\nlisten = ":1"\ndefault = "shop"\n[[app]]\nname = "shop"\nrules = ["b.conf", "/a.conf"]\n'
    b"responses = true\nlife = 1\n", b'app = [{ name = "a", rules = [] }, 7]', b'app = [7]', b"app = [[]]", b"app = \"a\"", b"app = true",
    b"app = [{}]\nsize = 0", b"app = [{ lane = 1 }]\nzone = 1", b'[[app]]\nname = "a"\nrules = []\n[[app.rules]]\nx = 1',
    b'[[app]]\nname = "a"\nrules = []\n[app.life]\nx = 1', b'app = [{ name = "\\u0000", rules = [] }]', b'app = [{ name = "\\u007f", rules = [] }]',
    b'app = [{ name = "\\u00e4", rules = [] }]', b"app = [{ name = 'a\\n', rules = [] }]", b'app = [{ name = """a""", rules = [] }]',
    b'app = [{ name = """\na\n""", rules = [] }]', b'app = [{ name = "a", rules = ["x", "y", "x"], responses = false, life = 86400000 }]',
    b"default = \"a\"" + APP.encode(), b"app = [1, 2]\nsize = 0",
    b'"size" = 300' + APP.encode(), b"'size' = 300" + APP.encode(), b"\"si\\u007ae\" = 300" + APP.encode(), b"size=300 # x" + APP.encode(),
    b"\r\nsize = 300\r\n" + APP.encode(), b"size = 300\rworkers = 2" + APP.encode(), b"size = 300\x00" + APP.encode(), b"\tsize\t=\t300" + APP.encode(),
]


# Inline tables of TOML 1.1, in which a comma may stand at the end, and line ends: tomllib reads 1.0.
LATER_TOML = [b'app = [{ name = "a", rules = [] , }]', b'app = [{ name = "a"\n, rules = [] }]']


def at_top(lines):
    return lines + APP


def in_app(lines):
    return APP[1:] + lines


def cases():
    for one in TEXTS:
        yield case(one)
    for one in LATER_TOML:
        yield line(one, 16380, 16384, 1, 64, b"127.0.0.1:9000", "none", "app", b"a", "requests", 60000)
    for key, values in {"size": (255, 256, 257, 65535, 65536, 65537, 0, -1, -300), "capacity": (0, 1, 16383, 16384, 16385, -1),
                        "shards": (0, 1, 2, 3, 5, 7, 63, 64, 65, -2), "workers": (0, 1, 63, 64, 65, -1)}.items():
        for value in values + (9223372036854775807, -9223372036854775808, "1.0", '"1"', "true", "[1]", "{}", "2020-01-01", "nan"):
            yield case(at_top("%s = %s" % (key, value)))
    for value in ('""', "9000", '"a"', '"\\t"', '"\\u0001"', "[]", "true", '"\\u00e4"', "''", '"127.0.0.1:0"'):
        for key in ("listen", "default"):
            yield case(at_top("%s = %s" % (key, value)))
    for value in ("0", "1", "86400000", "86400001", "-1", "1.5", '"1"', "true", "[]", "60000", "9223372036854775807"):
        yield case(in_app("life = " + value))
    for value in ("true", "false", "1", "0", '"true"', "[]", "{}", "1.0", "2020-01-01"):
        yield case(in_app("responses = " + value))
    for capacity, shards in ((8193, 2), (8192, 2), (256, 64), (257, 64), (16384, 1), (5461, 3), (5462, 3), (1, 64), (16384, 64), (16385, 64)):
        yield case(at_top("capacity = %d\nshards = %d" % (capacity, shards)))
    for count in (1, 2, 63, 64, 65):
        yield case("app = [" + ", ".join('{ name = "%02d", rules = [] }' % n for n in range(count)) + "]")
    for key, most in (("listen", 256), ("default", 256)):
        for size in (most, most + 1):
            yield case(at_top('%s = "%s"' % (key, "x" * size)))
            yield case(at_top('%s = "%s"' % (key, "\u00e4" * (size // 2) + "x" * (size % 2))))
    for size in (256, 257):
        yield case('app = [{ name = "%s", rules = [] }]' % ("x" * size))
        yield case('default = "%s"\napp = [{ name = "%s", rules = [] }]' % ("y" * size, "y" * size))
    for size in (4096, 4097):
        yield case('app = [{ name = "", rules = ["%s"] }]' % ("x" * size))
    faults = ["size = 0", "capacity = 0", "shards = 0", "workers = 0", 'listen = ""', "default = 1"]
    for at, first in enumerate(faults):
        for second in faults[at + 1 :]:
            yield case(at_top(second + "\n" + first))
    for first, second in (("name = 1", "life = 0"), ("rules = 1", "name = 1"), ("life = 0", "responses = 1"), ("responses = 1", "rules = 1")):
        rest = {"name": 'name = "a"', "rules": "rules = []"}
        rest.pop(first.split()[0], None)
        rest.pop(second.split()[0], None)
        yield case("[[app]]\n" + "\n".join([first, second] + list(rest.values())))


if __name__ == "__main__":
    write(sys.argv[1], HEAD, cases())
