#!/usr/bin/env python3
"""Writes the case files of the protocol, with the model in protocol.py."""

import random

import protocol as p
from case_text import line, write

BYTES = [b"", b"\x00", b"\xff", b"a", b"a1", b"GET", b"x" * 239, b"y" * 240, b"\x00\xff\xc3\xa9"]
BANDS = [0, 1, 2, 127, 128, 239, 240, 241, 255, 256, 2287, 2288, 2289, 16380, 65535, 65536, 264431,
         264432, 264433, 33818863, 33818864, 33818865, 2 ** 31 - 1, 2 ** 31, 2 ** 32 - 1, 2 ** 32,
         4328786159, 4328786160, 554084600047, 554084600048, 70922828777711, 70922828777712,
         2 ** 53, 2 ** 63 - 1, 2 ** 63, 2 ** 64 - 2, 2 ** 64 - 1]


def varints():
    r = random.Random(101)
    numbers = BANDS + [r.randrange(2 ** r.randrange(1, 65)) for _ in range(60)]
    lines = [line("write", n, p.spell(n)) for n in numbers]
    inputs = [b"", b"\xef", b"\xf0\x00\x01", b"\xff\xf0\xfe\xfe\xfe\xfe\xfe\xfe\xfe\x0f",
              b"\xff" * 9, b"\xff" * 9 + b"\x80", b"\xff" * 10, b"\xf0" + b"\x80" * 8 + b"\x00",
              b"\xf0" + b"\x80" * 8 + b"\x01", b"\xf0" + b"\x80" * 9, b"\xff" + b"\xff" * 8 + b"\x00"]
    for n in numbers:
        spelled = p.spell(n)
        inputs += [spelled, spelled + b"\x00", spelled + spelled]
        inputs += [spelled[:cut] for cut in range(1, len(spelled))][-2:]
    for _ in range(80):
        first = bytes([r.randrange(230, 256)])
        inputs.append(first + bytes(r.choice([0x7f, 0x80, 0xff, r.randrange(256)])
                                    for _ in range(r.randrange(12))))
    for data in inputs:
        got = p.number_at(data)
        if got[0] == "read":
            lines.append(line("read", data, got[1], got[2], got[1], data[got[2]:]))
        else:
            lines.append(line("read", data, got[0]))
    write("varints.txt", """
Numbers of the protocol (SPOE.txt, 3.1): what stands at the front of some bytes, and the bytes of a
number. The expected values come from the model tools/cases/protocol.py, which adds up the bytes as the
standard says; tools/cases/protocol_cases.py writes this file.""", lines)


def value_words(value):
    name, what = value
    if name == "null":
        return ["null"]
    if name == "bool":
        return ["bool", "true" if what else "false"]
    return [name, what]


def pair_words(pair):
    return [pair[0]] + value_words(pair[1])


def all_values(r):
    values = [("null", None), ("bool", False), ("bool", True)]
    for name, least, most in p.INTEGERS.values():
        numbers = {least, least + 1, most - 1, most, 0, 1, 239, 240, 403, 8080}
        if least < 0:
            numbers |= {-1, -2, -240}
        values += [(name, n) for n in sorted(numbers) if least <= n <= most]
        values += [(name, r.randrange(least, most + 1)) for _ in range(4)]
    values += [("ipv4", bytes(a)) for a in ([127, 0, 0, 1], [0] * 4, [255] * 4, [192, 0, 2, 1])]
    values += [("ipv6", bytes(a)) for a in ([0] * 16, [255] * 16, list(range(16)), [0] * 15 + [1])]
    return values + [(name, text) for name in ("text", "binary") for text in BYTES]


def typed_data():
    r = random.Random(102)
    inputs = [b"", b"\xe0", b"\xe1", b"\xf1", b"\xf3\x05", b"\x02\xff\xf0\xfe\xfe\x3e",
              b"\x02\xf0\xf1\xfe\xfe\x3e", b"\x02\xf0\xf1\xfe\xfe\xbe\xfe\xfe\xfe\xfe\x0e",
              b"\x02\xff\xf0\xfe\xfe\xbe\xfe\xfe\xfe\xfe\x0e", b"\x03\xf0\xf1\xfe\xfe\x7e", b"\x0a",
              b"\xff\x00", b"\x06\x7f\x00\x00", b"\x08\x04GET"]
    for value in all_values(r):
        spelled = p.data_bytes(value)
        inputs += [spelled, spelled + b"\x00"]
        if len(spelled) < 30:
            inputs.append(bytes([spelled[0] | 0xe0]) + spelled[1:])
        if len(spelled) > 1:
            inputs.append(spelled[:-1])
    inputs += [bytes([kind, 0, 0]) for kind in range(256)]
    lines = []
    for data in inputs:
        try:
            value, rest = p.take_data(data)
            lines.append(line("data", data, *value_words(value), len(data) - len(rest),
                              p.data_bytes(value)))
        except p.Invalid:
            lines.append(line("data", data, "invalid"))
    for value in all_values(r):
        name = r.choice(BYTES[:6])
        for data in (p.pair_bytes((name, value)) + b"\x02id", p.pair_bytes((name, value))[:-1]):
            try:
                pair, rest = p.take_pair(data)
                lines.append(line("pair", data, *pair_words(pair), len(data) - len(rest),
                                  p.pair_bytes(pair)))
            except p.Invalid:
                lines.append(line("pair", data, "invalid"))
    for text in BYTES + [b"coraza-req"]:
        for data in (p.text_bytes(text), p.text_bytes(text) + b"\x00a", p.text_bytes(text)[:-1],
                     p.spell(len(text) + 1) + text):
            try:
                got, rest = p.take_text(data)
                lines.append(line("text", data, got, rest, p.text_bytes(got)))
            except p.Invalid:
                lines.append(line("text", data, "invalid"))
    lines.append(line("text", p.spell(2 ** 64 - 1) + b"a", "invalid"))
    write("typed_data.txt", """
Typed data, pairs and counted texts (SPOE.txt, 3.1), read from the front of some bytes and written
again. The expected values come from the model tools/cases/protocol.py; tools/cases/protocol_cases.py
writes this file.""", lines)


def pairs():
    r = random.Random(103)
    both = b"\x02id\x08\x02a1\x06method\x08\x03GET"
    inputs = [(2, both), (3, both), (1, both), (0, both), (0, b""), (1, b""), (4294967295, both)]
    values = all_values(r)
    for _ in range(60):
        count = r.randrange(6)
        data = b"".join(p.pair_bytes((r.choice(BYTES[:6]), r.choice(values))) for _ in range(count))
        inputs.append((count, data))
        inputs.append((count + r.choice([0, 1]), data[:r.randrange(len(data) + 1)]))
        inputs.append((count, data + b"\x00"))
    lines = []
    for count, data in inputs:
        try:
            got, rest = p.take_pairs(data, min(count, len(data) + 1))
            lines.append(line(count, data, *[w for pair in got for w in pair_words(pair)],
                              len(data) - len(rest), b"".join(p.pair_bytes(x) for x in got)))
        except p.Invalid:
            lines.append(line(count, data, "invalid"))
    write("pairs.txt", """
So many pairs at the front of some bytes (SPOE.txt, 3.1), read and written again. The expected values
come from the model tools/cases/protocol.py; tools/cases/protocol_cases.py writes this file.""", lines)


def read_frames(limits, stream):
    words, written = [], b""
    for limit in limits:
        while True:
            got = p.frame_at(stream, limit)
            if got[0] != "frame":
                break
            kind, flags, number, frame, payload = got[1]
            words += [kind, flags, number, frame, payload]
            written += p.frame_bytes(*got[1])
            stream = got[2]
        words += (["bad", got[1]] if got[0] == "bad" else ["not-yet"]) + [len(stream)]
    return words + [written]


def frames():
    r = random.Random(104)
    two = (b"\x00\x00\x00\x07\x03\x00\x00\x00\x01\x07\x01"
           b"\x00\x00\x00\x13\x03\x00\x00\x00\x01\xfc\x03\xff\xf0\xfe\xfe\xfe\xfe\xfe\xfe\xfe\x0eab")
    inputs = [(18, 19, two), (19, 18, two), (6, 19, two), (256, 256, two)]
    inputs += [(256, 256, head) for head in (
        b"", b"\x00\x00\x01", b"\x00\x00\x01\x01", b"\x00\x00\x00\x07\x03\x00\x00\x00\x01\x07",
        b"\x00\x00\x00\x00", b"\x00\x00\x00\x06\x03\x00\x00\x00\x01\x07",
        b"\x00\x00\x00\x07\x03\x00\x00\x00\x01\x07\xf0", b"\x00\x00\x00\x07\x03\x00\x00\x00\x00\x07\x01",
        b"\x00\x00\x00\x07\x03\x00\x00\x00\x03\x07\x01", b"\x00\x00\x00\x07\x00\x00\x00\x00\x01\x07\x01",
        b"\x00\x00\x00\x04\x03\x00\x00\x00", b"\xff\xff\xff\xff", b"\x00\x00\x01\x00" + b"\x03" * 256,
        b"\x00\x00\x00\x05\x03\x00\x00\x00\x01", b"\x00\x00\x00\x05\x03\x00\x00\x00\x00")]
    for _ in range(120):
        stream = b""
        for _ in range(r.randrange(1, 4)):
            kind = r.choice([0, 1, 2, 3, 3, 3, 77, 101, 102, 103, 255])
            flags = r.choice([1, 1, 1, 1, 0, 2, 3, 5, 0x80000001, 0xfffffffd, 0xffffffff])
            payload = bytes(r.randrange(256) for _ in range(r.randrange(20)))
            stream += p.frame_bytes(kind, flags, r.choice([0, 7, 240, 300, 2 ** 64 - 1]),
                                    r.choice([0, 1, 239, 2288]), payload)
        kept = r.choice([len(stream), len(stream), r.randrange(len(stream) + 1)])
        limit = r.choice([7, 20, 24, 40, 256, 16380, 2 ** 32 - 1])
        inputs.append((limit, r.choice([limit, 16380]), stream[:kept]))
    for _ in range(60):
        body = bytes([r.choice([1, 3])]) + b"\x00\x00\x00\x01" + bytes(
            r.choice([0xf0, 0x80, 0xff, 0x01, 0x00]) for _ in range(r.randrange(24)))
        stream = len(body).to_bytes(4, "big") + body + b"\x00\x00"
        inputs.append((256, 256, stream))
    lines = [line(limit, later, stream, *read_frames((limit, later), stream))
             for limit, later, stream in inputs]
    write("frames.txt", """
Streams of frames (SPOE.txt, 3.2), read with one limit and then with another: whole, cut at each place,
and byte by byte. Checks in this order: the length is above the limit (3), the whole frame is in no
spelling (4), FIN is missing, ABORT is set or the type is 0 (10). The expected values come from the model
tools/cases/protocol.py; tools/cases/protocol_cases.py writes this file.""", lines)


def hello_words(own_size, payload):
    got = p.negotiate(payload, own_size)
    if got[0] == "refused":
        return ["refused", got[1], p.agent_disconnect(got[1])]
    _, size, pipelining, check = got
    return ["terms", size, "pipelining" if pipelining else "one-by-one",
            "check" if check else "serve", p.agent_hello(size, pipelining)]


OLD_HELLOS = [
    b"\x12supported-versions\x08\x032.0\x0emax-frame-size\x03\xfc\xf0\x06\x0ccapabilities\x08\x0apipelining",
    b"\x12supported-versions\x08\x032.0\x0emax-frame-size\x03\xfc\xf0\x06\x0ccapabilities\x08\x00\x0bhealthcheck\x11",
    b"\x12supported-versions\x08\x032.0\x0emax-frame-size\x03\xf4\xf1\x1e\x0ccapabilities\x08\x10pipelining,async\x09engine-id\x08\x011",
    b"\x12supported-versions\x08\x081.0, 2.0\x0emax-frame-size\x03\x01\x0ccapabilities\x08\x00\x0emax-frame-size\x04\xf0\x01",
    b"\x01", b"", b"\x0emax-frame-size\x03\xfc\xf0\x06",
    b"\x12supported-versions\x08\x032.0\x0emax-frame-size\x00",
    b"\x12supported-versions\x08\x031.0\x0emax-frame-size\x03\x01",
    b"\x12supported-versions\x08\x031.0\x0emax-frame-size\x03\x01\x0ccapabilities\x08\x00",
    b"\x12supported-versions\x08\x022.\x0emax-frame-size\x03\xfc\xf0\x06\x0ccapabilities\x08\x00",
    b"\x12supported-versions\x08\x032.0\x0emax-frame-size\x03\xff\x00\x0ccapabilities\x08\x00",
    b"\x12supported-versions\x08\x032.0\x0emax-frame-size\x02\xff\xf0\xfe\xfe\xfe\xfe\xfe\xfe\x0e\x0ccapabilities\x08\x00"]


def hello():
    r = random.Random(105)
    lines = [line("leave", status, p.agent_disconnect(status)) for status in sorted(p.MESSAGES)]
    lines += [line(16380, payload, *hello_words(16380, payload)) for payload in OLD_HELLOS]
    versions = [b"2.0", b"1.0", b"2.", b"2.00", b"2.0a", b"2.9", b"2.0,1.0", b"1.0, 2.0", b" 2.0 ", b"",
                b",2.0", b"2.0,", b"\t2.0", b"2.0\x00", b"12.0", b"2.0 2.0", b"2,0", b"  2.123456789  ", b"3.0,2.x"]
    sizes = [("uint32", 16380), ("uint32", 256), ("uint32", 255), ("int32", 4096), ("int64", 65536),
             ("uint64", 2 ** 32 - 1), ("uint64", 2 ** 32), ("int32", -1), ("int64", -2 ** 63),
             ("uint64", 2 ** 64 - 1), ("text", b"16380"), ("null", None), ("bool", True), ("uint32", 0)]
    capabilities = [b"pipelining", b"", b"async", b"pipelining,async", b"async, pipelining ", b"Pipelining",
                    b"pipelining\t", b"pipelinin", b"pipeliningx", b",,pipelining,,", b"  pipelining"]
    good = [(b"supported-versions", ("text", b"2.0")), (b"max-frame-size", ("uint32", 16380)),
            (b"capabilities", ("text", b"pipelining"))]

    def case(list_of_pairs, own_size=16380, tail=b""):
        payload = b"".join(p.pair_bytes(x) for x in list_of_pairs) + tail
        lines.append(line(own_size, payload, *hello_words(own_size, payload)))
    for text in versions:
        case([(b"supported-versions", ("text", text))] + good[1:])
    for value in sizes:
        case([good[0], (b"max-frame-size", value), good[2]])
        case(good + [(b"max-frame-size", value)])
    for text in capabilities:
        case(good[:2] + [(b"capabilities", ("text", text))])
    for name in (b"supported-versions", b"capabilities"):
        for value in (("binary", b"2.0"), ("null", None), ("uint32", 2)):
            case([x for x in good if x[0] != name] + [(name, value)])
            case(good + [(name, value)])
    for missing in range(3):
        case(good[:missing] + good[missing + 1:])
        case(good[missing:missing + 1])
    for value in (("bool", True), ("bool", False), ("uint32", 1), ("null", None), ("text", b"true")):
        case(good + [(b"healthcheck", value)])
        case(good + [(b"healthcheck", ("bool", True)), (b"healthcheck", value)])
    for name in (b"Supported-Versions", b"engine-id", b""):
        case([(name, ("text", b"2.0"))] + good)
    for tail in (b"\x00", b"\x01a", b"\x01a\x0a", b"\x01a\x08\x02b", b"\xf0"):
        case(good, tail=tail)
    for own_size in (0, 255, 256, 4096, 16380, 2 ** 32 - 1):
        for size in (256, 4096, 2 ** 32 - 1):
            case([good[0], (b"max-frame-size", ("uint64", size)), good[2]], own_size)
    for _ in range(60):
        chosen = [(b"supported-versions", ("text", r.choice(versions))), (b"max-frame-size", r.choice(sizes)),
                  (b"capabilities", ("text", r.choice(capabilities))), (b"healthcheck", ("bool", True)),
                  (b"engine-id", ("text", b"e"))]
        r.shuffle(chosen)
        case(chosen[:r.randrange(3, 6)] + r.sample(good, r.randrange(3)))
    write("hello.txt", """
Payloads of HAPROXY-HELLO and what they are answered with (SPOE.txt, 3.2.4, 3.2.5 and 3.2.9), and the
DISCONNECT of each status. Refused in this order: no list of pairs (4), no versions (5), no size (6), no
capabilities (7), no version that is supported (8), a size that is too small or too large (9). The
expected values come from the model tools/cases/protocol.py; tools/cases/protocol_cases.py writes this
file.""", lines)


def messages():
    r = random.Random(106)
    known = b"\x0acoraza-req\x02\x02id\x08\x02a1\x06method\x08\x03GET\x01x\x00"
    inputs = [known, known[:-1], b"", b"\x00\x00", b"\x00", b"\x01x", b"\x01x\x01", b"\x01x\x01\x01a",
              b"\x01x\x00\x00"]
    values = all_values(r)
    for _ in range(70):
        data = b"".join(p.message_bytes(r.choice([b"coraza-req", b"coraza-res", b"other", b""]), [
            (r.choice([b"id", b"method", b"status", b""]), r.choice(values[:50]))
            for _ in range(r.randrange(5))]) for _ in range(r.randrange(1, 4)))
        inputs += [data, data[:r.randrange(len(data))], data + b"\x01"]
    many = p.message_bytes(b"m", [(b"a", ("null", None))] * 255)
    inputs += [many, many[:-2]]
    lines = []
    for data in inputs:
        try:
            words = []
            for name, args in p.messages_of(data):
                words += ["message", name, len(args)] + [w for x in args for w in pair_words(x)]
            lines.append(line(data, *words))
        except p.Invalid:
            lines.append(line(data, "invalid"))
    write("messages.txt", """
Payloads of NOTIFY frames (SPOE.txt, 3.2.6): the messages and their arguments. The expected values come
from the model tools/cases/protocol.py; tools/cases/protocol_cases.py writes this file.""", lines)


def acks():
    r = random.Random(107)
    denial = [(b"id", ("text", b"a2")), (b"action", ("text", b"deny")), (b"status", ("uint32", 403)),
              (b"ruleid", ("uint32", 100))]
    inputs = [(7, 2, 57, denial), (7, 2, 58, denial), (7, 2, 59, denial), (0, 0, 7, []), (0, 0, 6, []),
              (2 ** 64 - 1, 2 ** 64 - 1, 25, []), (2 ** 64 - 1, 2 ** 64 - 1, 24, []), (7, 1, 0, [])]
    values = all_values(r)
    for _ in range(60):
        actions = [(r.choice(BYTES), r.choice(values)) for _ in range(r.randrange(6))]
        stream, frame = r.choice(BANDS), r.choice(BANDS)
        length = len(p.ack_bytes(stream, frame, actions)) - 4
        inputs += [(stream, frame, size, actions) for size in (length, length - 1, r.randrange(2 ** 32))]
    lines = []
    for stream, frame, size, actions in inputs:
        ack = p.ack_bytes(stream, frame, actions)
        given = (stream, frame, size, b"".join(p.pair_bytes(a) for a in actions))
        if len(ack) - 4 > size:
            lines.append(line(*given, "too-big", len(ack) - 4))
        else:
            lines.append(line(*given, ack))
    write("acks.txt", """
ACK frames (SPOE.txt, 3.2.7): the stream, the frame, the size that was agreed on, and the variables that
are set, as pairs. The expected values come from the model tools/cases/protocol.py;
tools/cases/protocol_cases.py writes this file.""", lines)


def argument_words(name, given):
    table = p.REQUEST if name == b"coraza-req" else p.RESPONSE
    bad, values = p.arguments(table, given)
    if bad is not None:
        return ["bad", bad.decode(), "-" if values is None else values]
    text = lambda key: values.get(key, b"")
    other = lambda key: values.get(key, "-")
    if table is p.REQUEST:
        return ["request", text(b"app"), text(b"id"), other(b"src-ip"), other(b"src-port"), other(b"dst-ip"),
                other(b"dst-port")] + [text(k) for k in (b"method", b"path", b"query", b"version", b"headers",
                                                         b"body")]
    return ["response", text(b"app"), text(b"id"), values[b"status"]] + [
        text(k) for k in (b"version", b"headers", b"body")]


def arguments():
    r = random.Random(108)
    wanted = [(b"id", ("text", b"a1")), (b"method", ("text", b"GET")), (b"status", ("uint32", 200))]
    names = [n for n, _, _ in p.REQUEST] + [b"status", b"ID", b"other"]
    values = [("null", None), ("bool", True), ("int32", -1), ("int32", 0), ("int32", 100), ("uint32", 99),
              ("uint32", 443), ("int64", 999), ("int64", 1000), ("uint64", 65535), ("uint64", 65536),
              ("uint64", 2 ** 64 - 1), ("int64", -200), ("ipv4", b"\xc0\x00\x02\x01"), ("ipv6", b"\x01" * 16),
              ("text", b""), ("text", b"x" * 256), ("text", b"x" * 257), ("binary", b"\xff\x00"),
              ("binary", b""), ("text", b"/a?b=c")]
    lines = []

    def case(name, pairs):
        lines.append(line(p.message_bytes(name, pairs), *argument_words(name, pairs)))
    both = (b"coraza-req", b"coraza-res")
    for message in both:
        for name in names:
            for value in values:
                case(message, wanted + [(name, value)])
        case(message, [])
        for one in wanted:
            case(message, [one])
        case(message, [(b"id", ("bool", True)), (b"status", ("uint32", 200)), (b"status", ("uint32", 500)),
                       (b"id", ("text", b"a2"))])
        case(message, wanted + [(b"body", ("bool", True)), (b"dst-ip", ("bool", True))])
    full = wanted + [(b"app", ("text", b"shop")), (b"version", ("text", b"1.1")),
                     (b"headers", ("text", b"host: d\r\n")), (b"body", ("binary", b"\xff")),
                     (b"path", ("text", b"/a")), (b"query", ("text", b"b=c")),
                     (b"src-ip", ("ipv4", b"\xc0\x00\x02\x01")), (b"dst-ip", ("ipv6", b"\x01" * 16)),
                     (b"src-port", ("int64", 49152)), (b"dst-port", ("uint32", 443))]
    for message in both:
        case(message, full)
        for _ in range(60):
            chosen = full + [(r.choice(names), r.choice(values)) for _ in range(r.randrange(4))]
            r.shuffle(chosen)
            case(message, chosen[:r.randrange(4, len(chosen) + 1)])
    write("arguments.txt", """
Messages and the request or the response that their arguments tell, or the first argument that is bad, in
the order of checking: id, app, addresses, ports, method, path, query, or status, version, headers, body.
Of two arguments of one name the later wins, and NULL is absent. The expected values come from the model
tools/cases/protocol.py; tools/cases/protocol_cases.py writes this file.""", lines)


# Rules whose judgement is known, by the method alone: their text, and the verdict on a request.
JUDGES = [
    (b"", lambda v: None),
    (b'SecRule REQUEST_METHOD "@streq POST" "id:100,phase:1,deny"\n',
     lambda v: (b"deny", 403, b"", 100) if v[b"method"] == b"POST" else None),
    (b'SecRule REQUEST_METHOD "@streq PUT" "id:5,phase:2,drop,status:410"\n',
     lambda v: (b"drop", 410, b"", 5) if v[b"method"] == b"PUT" else None),
    (b'SecRule REQUEST_METHOD "!@streq GET" "id:999999999,phase:1,redirect:/no,status:307"\n',
     lambda v: (b"redirect", 307, b"/no", 999999999) if v[b"method"] != b"GET" else None)]


def random_message(r):
    name = r.choice([b"coraza-req"] * 5 + [b"coraza-res", b"other"])
    args = [(b"id", ("text", r.choice([b"a1", b"a2", b"x" * 256]))),
            (b"method", ("text", r.choice([b"GET", b"POST", b"PUT"]))), (b"status", ("int32", 200)),
            (b"app", ("text", b"shop")), (b"src-ip", ("ipv4", b"\xc0\x00\x02\x01")),
            (b"src-port", ("uint32", r.choice([443, 65535, 65536]))), (b"path", ("binary", b"/a")),
            (b"query", r.choice([("null", None), ("text", b"b=c"), ("bool", True)]))]
    return p.message_bytes(name, args[:r.choice([3, 3, 3, 3, 1, 2, 5, 6, 8])])


def random_frame(r, greeted):
    """A frame of HAProxy: mostly a NOTIFY, after its HELLO."""
    if not greeted and r.randrange(12):
        pairs = [(b"supported-versions", ("text", r.choice([b"2.0", b"2.0", b"2.0", b"1.0"]))),
                 (b"max-frame-size", ("uint32", r.choice([16380, 4096, 256, 65536]))),
                 (b"capabilities", ("text", r.choice([b"pipelining", b"", b"async"])))]
        if not r.randrange(10):
            pairs.append((b"healthcheck", ("bool", True)))
        return p.frame_bytes(1, 1, 0, 0, b"".join(p.pair_bytes(x) for x in pairs))
    kind = r.choice([3] * 14 + [2, 1, 0, 77, 77, 101, 103])
    flags = r.choice([1] * 12 + [5, 0, 3])
    stream, frame = r.choice([0, 7, 300, 2 ** 64 - 1]), r.randrange(1, 300)
    payload = b"".join(random_message(r) for _ in range(r.choice([0, 1, 1, 1, 1, 2, 3])))
    return p.frame_bytes(kind, flags, stream, frame, payload[:r.choice([len(payload)] * 9 + [3])])


def offer(size):
    return p.frame_bytes(1, 1, 0, 0, b"".join(p.pair_bytes(x) for x in [
        (b"supported-versions", ("text", b"2.0")), (b"max-frame-size", ("uint32", size)),
        (b"capabilities", ("text", b""))]))


def long_acks():
    """Identifiers whose ACK just fits the size that was agreed on, and is a byte too long."""
    lines = []
    for size in (256, 300, 320):
        for rules, judge in JUDGES[1:]:
            answers = []
            for count in range(120, 257):
                message = p.message_bytes(b"coraza-req", [
                    (b"id", ("text", b"x" * count)), (b"method", ("text", b"POST")),
                    (b"status", ("null", None))])
                stream = offer(size) + p.frame_bytes(3, 1, 7, 1, message)
                answers.append((stream, p.connection(stream, judge)))
            for before, after in zip(answers, answers[1:]):
                if before[1][0] != after[1][0]:
                    lines += [line(rules, stream, *answer) for stream, answer in (before, after)]
    return lines


def connections():
    r = random.Random(109)
    lines = []
    for _ in range(180):
        rules, judge = r.choice(JUDGES)
        stream = random_frame(r, False)
        for _ in range(r.randrange(5)):
            stream += random_frame(r, True)
        kept = r.choice([len(stream)] * 4 + [r.randrange(len(stream) + 1)])
        status, out = p.connection(stream[:kept], judge)
        lines.append(line(rules, stream[:kept], status, out))
    lines += long_acks()
    write("connections.txt", """
RULES INPUT STATUS OUTPUT: what `once` answers and writes for an input of HAProxy. The rules look at the
method alone, so that their judgement is known. The expected values come from the model
tools/cases/protocol.py; tools/cases/protocol_cases.py writes this file.""", lines)


if __name__ == "__main__":
    for make in (varints, typed_data, pairs, frames, hello, messages, acks, arguments,
                 connections):
        make()
