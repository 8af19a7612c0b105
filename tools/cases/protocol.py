"""A small model of the protocol, written from its rules and not from the program.

Numbers, typed data, frames, HELLO, messages, ACK, the arguments of a message, and a whole connection
under rules whose judgement is given. `protocol_cases.py` makes case files of it."""

U64 = 2 ** 64


# Numbers (SPOE.txt, 3.1): below 240 one byte; else the low eight bits of v | 240, then (v - 240) >> 4 in
# groups of seven bits with the high bit set while another follows.
def spell(value):
    if value < 240:
        return bytes([value])
    out = [(value | 240) & 255]
    value = (value - 240) >> 4
    while value >= 128:
        out.append((value | 128) & 255)
        value = (value - 128) >> 7
    return bytes(out + [value])


def number_at(data):
    """('read', value, used), ('short',) or ('large',)."""
    if not data:
        return ("short",)
    if data[0] < 240:
        return ("read", data[0], 1)
    value = data[0]
    for place, byte in enumerate(data[1:]):
        value += byte << (4 + 7 * place)
        if value >= U64:
            return ("large",)
        if byte < 128:
            return ("read", value, place + 2)
    return ("short",)


class Invalid(Exception):
    pass


def take_number(data):
    got = number_at(data)
    if got[0] != "read":
        raise Invalid
    return got[1], data[got[2]:]


def take_text(data):
    count, rest = take_number(data)
    if count > len(rest):
        raise Invalid
    return rest[:count], rest[count:]


def text_bytes(text):
    return spell(len(text)) + text


# Typed data: a value is its type's name and what it holds.
INTEGERS = {2: ("int32", -2 ** 31, 2 ** 31 - 1), 3: ("uint32", 0, 2 ** 32 - 1),
            4: ("int64", -2 ** 63, 2 ** 63 - 1), 5: ("uint64", 0, U64 - 1)}
CODES = {"null": 0, "bool": 1, "int32": 2, "uint32": 3, "int64": 4, "uint64": 5,
         "ipv4": 6, "ipv6": 7, "text": 8, "binary": 9}


def take_data(data):
    if not data:
        raise Invalid
    kind, flags, rest = data[0] & 15, data[0] >> 4, data[1:]
    if kind == 0:
        return ("null", None), rest
    if kind == 1:
        return ("bool", bool(flags & 1)), rest
    if kind in INTEGERS:
        name, least, most = INTEGERS[kind]
        word, rest = take_number(rest)
        if least < 0 and word >= 2 ** 63:
            word -= U64
        if not least <= word <= most:
            raise Invalid
        return (name, word), rest
    if kind in (6, 7):
        size = 4 if kind == 6 else 16
        if len(rest) < size:
            raise Invalid
        return ("ipv4" if kind == 6 else "ipv6", rest[:size]), rest[size:]
    if kind in (8, 9):
        text, rest = take_text(rest)
        return ("text" if kind == 8 else "binary", text), rest
    raise Invalid


def data_bytes(value):
    name, what = value
    code = CODES[name]
    if name == "null":
        return b"\x00"
    if name == "bool":
        return b"\x11" if what else b"\x01"
    if code in INTEGERS:
        return bytes([code]) + spell(what % U64)
    if name in ("ipv4", "ipv6"):
        return bytes([code]) + what
    return bytes([code]) + text_bytes(what)


def take_pair(data):
    name, rest = take_text(data)
    value, rest = take_data(rest)
    return (name, value), rest


def take_pairs(data, count):
    pairs = []
    for _ in range(count):
        pair, data = take_pair(data)
        pairs.append(pair)
    return pairs, data


def pair_bytes(pair):
    return text_bytes(pair[0]) + data_bytes(pair[1])


# Frames (SPOE.txt, 3.2): the length, the type, the flags, STREAM-ID, FRAME-ID and the payload.
def frame_bytes(kind, flags, stream, frame, payload):
    body = bytes([kind]) + flags.to_bytes(4, "big") + spell(stream) + spell(frame) + payload
    return len(body).to_bytes(4, "big") + body


def frame_at(stream, limit):
    """('frame', (kind, flags, stream, frame, payload), rest), ('bad', status) or ('not-yet',)."""
    if len(stream) < 4:
        return ("not-yet",)
    length = int.from_bytes(stream[:4], "big")
    if length > limit:
        return ("bad", 3)
    if len(stream) < 4 + length:
        return ("not-yet",)
    body, rest = stream[4:4 + length], stream[4 + length:]
    if len(body) < 5:
        return ("bad", 4)
    kind, flags = body[0], int.from_bytes(body[1:5], "big")
    try:
        number, more = take_number(body[5:])
        frame, payload = take_number(more)
    except Invalid:
        return ("bad", 4)
    if flags & 1 == 0 or flags & 2 or kind == 0:
        return ("bad", 10)
    return ("frame", (kind, flags, number, frame, payload), rest)


MESSAGES = {0: b"normal", 3: b"frame too big", 4: b"invalid frame", 5: b"version not found",
            6: b"max-frame-size not found", 7: b"capabilities not found", 8: b"unsupported version",
            9: b"bad max-frame-size", 10: b"fragmentation not supported",
            13: b"resource allocation error"}


def control_frame(kind, pairs):
    return frame_bytes(kind, 1, 0, 0, b"".join(pair_bytes(p) for p in pairs))


def agent_disconnect(status):
    return control_frame(102, [(b"status-code", ("uint32", status)),
                               (b"message", ("text", MESSAGES[status]))])


def agent_hello(size, pipelining):
    return control_frame(101, [(b"version", ("text", b"2.0")), (b"max-frame-size", ("uint32", size)),
                               (b"capabilities", ("text", b"pipelining" if pipelining else b""))])


# HELLO: ('terms', size, pipelining, check) or ('refused', status).
def negotiate(payload, own_size):
    found = {}
    try:
        while payload:
            (name, value), payload = take_pair(payload)
            found[name] = value
    except Invalid:
        return ("refused", 4)

    def of_type(name, types):
        value = found.get(name)
        return value[1] if value is not None and value[0] in types else None
    versions = of_type(b"supported-versions", ("text",))
    size = of_type(b"max-frame-size", ("int32", "uint32", "int64", "uint64"))
    capabilities = of_type(b"capabilities", ("text",))
    if versions is None:
        return ("refused", 5)
    if size is None:
        return ("refused", 6)
    if capabilities is None:
        return ("refused", 7)
    items = [item.strip(b" ") for item in versions.split(b",")]
    digits = set(b"0123456789")
    if not any(len(i) > 2 and i[:2] == b"2." and set(i[2:]) <= digits for i in items):
        return ("refused", 8)
    if size < 256 or size > 4294967295:
        return ("refused", 9)
    pipelining = b"pipelining" in [item.strip(b" ") for item in capabilities.split(b",")]
    return ("terms", min(size, own_size), pipelining, found.get(b"healthcheck") == ("bool", True))


# NOTIFY: the messages that a payload is.
def messages_of(payload):
    messages = []
    while payload:
        name, payload = take_text(payload)
        if not payload:
            raise Invalid
        pairs, payload = take_pairs(payload[1:], payload[0])
        messages.append((name, pairs))
    return messages


def message_bytes(name, pairs):
    return text_bytes(name) + bytes([len(pairs)]) + b"".join(pair_bytes(p) for p in pairs)


# ACK: each action sets a variable of the transaction.
def ack_bytes(stream, frame, actions):
    return frame_bytes(103, 1, stream, frame, b"".join(b"\x01\x03\x02" + pair_bytes(a) for a in actions))


# The arguments of a message.
TEXTS, NUMBERS = ("text", "binary"), ("int32", "uint32", "int64", "uint64")


def is_text(least=0, most=None):
    return lambda v: v[0] in TEXTS and len(v[1]) >= least and (most is None or len(v[1]) <= most)


def is_number(least, most):
    return lambda v: v[0] in NUMBERS and least <= v[1] <= most


def is_address(value):
    return value[0] in ("ipv4", "ipv6")


# The name, whether it has to be there, and what a value has to be.
REQUEST = [(b"id", True, is_text(1, 256)), (b"app", False, is_text(0, 256)),
           (b"src-ip", False, is_address), (b"dst-ip", False, is_address),
           (b"src-port", False, is_number(0, 65535)), (b"dst-port", False, is_number(0, 65535)),
           (b"method", True, is_text(1)), (b"path", False, is_text()), (b"query", False, is_text()),
           (b"version", False, is_text()), (b"headers", False, is_text()), (b"body", False, is_text())]
RESPONSE = [(b"id", True, is_text(1, 256)), (b"app", False, is_text(0, 256)),
            (b"status", True, is_number(100, 999)), (b"version", False, is_text()),
            (b"headers", False, is_text()), (b"body", False, is_text())]


def arguments(table, pairs):
    """(None, values by name) or (the name of the first bad argument, the identifier or None)."""
    last = {}
    for name, value in pairs:
        last[name] = value
    values = {name: value for name, value in last.items() if value[0] != "null"}
    bad = None
    for name, wanted, is_good in table:
        if name in values:
            good = is_good(values[name])
        else:
            good = not wanted
        if not good and bad is None:
            bad = name
    if bad is None:
        return None, {name: values[name][1] for name, _, _ in table if name in values}
    return bad, (values[b"id"][1] if bad != b"id" else None)


# A whole connection of `once`: every application has the rules, and its responses are judged by them. `waiting` has
# the application and the identifier of each request that passed. No rule here looks at responses.
def answer_message(name, pairs, judge, waiting):
    if name == b"coraza-req":
        bad, values = arguments(REQUEST, pairs)
    elif name == b"coraza-res":
        bad, values = arguments(RESPONSE, pairs)
    else:
        return []
    if bad is not None:
        head = [(b"id", ("text", values))] if values is not None else []
        return head + [(b"data", ("text", bad)), (b"error", ("uint32", 5))]
    head = [(b"id", ("text", values[b"id"]))]
    key = values.get(b"app", b""), values[b"id"]
    if name == b"coraza-res":
        if key not in waiting:
            return head + [(b"error", ("uint32", 4))]
        waiting.remove(key)
        return head
    if key in waiting:
        return head + [(b"error", ("uint32", 2))]
    verdict = judge(values)
    if verdict is None:
        waiting.add(key)
        return head
    act, status, location, rule = verdict
    data = [(b"data", ("text", location))] if act == b"redirect" else []
    return head + [(b"action", ("text", act)), (b"status", ("uint32", status))] + data + [
        (b"ruleid", ("uint32", rule))]


def connection(stream, judge, own_size=16380):
    """The exit status of `once` and what it writes."""
    out, limit, greeted, waiting = b"", own_size, False, set()

    def leave(status):
        return (0 if status == 0 else 1), out + agent_disconnect(status)
    while True:
        got = frame_at(stream, limit)
        if got[0] == "not-yet":
            return (1 if stream else 0), out
        if got[0] == "bad":
            return leave(got[1])
        (kind, _, number, frame, payload), stream = got[1], got[2]
        if kind in (101, 102, 103):
            return leave(4)
        if kind == 2:
            return leave(0)
        if not greeted:
            if kind != 1:
                return leave(4)
            terms = negotiate(payload, own_size)
            if terms[0] == "refused":
                return leave(terms[1])
            out += agent_hello(terms[1], terms[2])
            if terms[3]:
                return 0, out
            limit, greeted = terms[1], True
        elif kind == 1:
            return leave(4)
        elif kind == 3:
            try:
                messages = messages_of(payload)
            except Invalid:
                return leave(4)
            actions = [a for name, pairs in messages for a in answer_message(name, pairs, judge, waiting)]
            ack = ack_bytes(number, frame, actions)
            if len(ack) - 4 > limit:
                return leave(3)
            out += ack
