"""Cases of sets of addresses. Whether a text is in a set is what Python's module `ipaddress` says."""

import ipaddress
import random
import sys

from case_words import line, write

HEAD = """Sets of addresses: WORDS between commas, TEXT, and whether the text is in their set, or
`bad` and the place of the first word that is no address and no block.
The answers are those of Python's module ipaddress: tools/cases/addresses.py."""

DRAW = random.Random(7)


def address(text):
    try:
        return ipaddress.ip_address(text.decode("ascii"))
    except (ValueError, UnicodeDecodeError):
        return None


def block(word):
    if address(word) is not None and b"%" not in word:
        return ipaddress.ip_network(word.decode(), strict=False)
    head, slash, bits = word.partition(b"/")
    ip = address(head)
    if not slash or ip is None or b"%" in word or not bits.isdigit() or str(int(bits)).encode() != bits:
        return None
    if int(bits) > ip.max_prefixlen:
        return None
    return ipaddress.ip_network(word.decode(), strict=False)


def case(words, text):
    text = text if isinstance(text, bytes) else str(text).encode()
    blocks = [block(word) for word in words]
    given = [b",".join(words), text]
    if None in blocks:
        return line(*given, "bad", blocks.index(None))
    ip = address(text) if b"%" not in text else None
    return line(*given, "yes" if any(ip is not None and ip in b for b in blocks) else "no")


def near(network):
    """Addresses at and around the ends of a network."""
    first, last = int(network.network_address), int(network.broadcast_address)
    kind = type(network.network_address)
    top = 2 ** network.max_prefixlen - 1
    for value in sorted({first - 1, first, first + 1, last - 1, last, last + 1}):
        if 0 <= value <= top:
            yield kind(value)


def cases():
    one = [b"10.0.0.0/8", b"2001:db8::/32"]
    for text in """10.255.0.1 11.0.0.1 2001:db8::1 2001:db9::1 2001:DB8:ffff::192.0.2.1 ::ffff:10.0.0.1
            10.0.0.01 10.0.0.1/32 10.0.0.256 10.0.0 10.0.0.1.2 1e1.0.0.1 0x0a.0.0.1 10.0.0.1. .10.0.0.1
            10..0.1 2001:db8:: 2001:0db8::1 2001:00db8::1 2001:db8::1::2 2001:db8:1:2:3:4:5:6
            2001:db8:1:2:3:4:5:6:7 2001:db8:1:2:3:4:5:: ::2001:db8:1:2:3:4:5 2001:db8::g 2001:db8:::1 :
            :: ::1 2001:db8:1:2:3:4:192.0.2.1 2001:db8:1:2:3:4:5:192.0.2.1 2001:db8::192.0.2.01
            2001:db8::1%1 2001:db8::192.0.2.256 2001:db8:1:2:3:4:5:6: :2001:db8:1:2:3:4:5:6""".split():
        yield case(one, text.encode())
    for text in (b"", b" 10.0.0.1", b"10.0.0.1 ", b"10.0.0.1\n", b"10.0.0.1\x00", b"\xff", b"+10.0.0.1"):
        yield case(one, text)
    for word in """0.0.0.0/0 ::/0 192.0.2.129/25 192.0.2.7/32 192.0.2.7 ::1/128 ::2/127 10.0.0.0/33 ::/129
            10.0.0.0/08 10.0.0.0/ 10.0.0/8 /8 / 10.0.0.0/8/8 10.0.0.0/-1 10.0.0.0/+8 10.0.0.0/8x
            10.0.0.0/255.0.0.0 10.0.0.0/00 10.0.0.0/0 ::ffff:10.0.0.0/104 ::ffff:10.0.0.0/8
            fe80::1%eth0 fe80::1%eth0/64 1.2.3 host 10.0.0.0/128 2001:db8::/64 2001:db8::5/64
            10.0.0.0/4294967304 10.0.0.0/18446744073709551624 ::/256""".split():
        word = word.encode()
        net = block(word)
        tests = ["10.0.0.1", "203.0.113.9", "::1"] + (list(near(net)) if net else [])
        for text in tests:
            yield case([word], text)
    yield case([], b"10.0.0.1")
    yield case([b"", b""], b"10.0.0.1")
    yield case([b"10.0.0.0/8", b""], b"10.0.0.1")
    yield case([b"10.0.0.0/8", b"10.0.0.0/33", b"x"], b"10.0.0.1")
    yield case([b" 10.0.0.0/8", b"x"], b"10.0.0.1")
    for _ in range(40):
        bits = DRAW.randint(0, 32)
        net = ipaddress.ip_network((DRAW.getrandbits(32), bits), strict=False)
        for text in near(net):
            yield case([str(net).encode()], text)
    for _ in range(40):
        bits = DRAW.randint(0, 128)
        net = ipaddress.ip_network((DRAW.getrandbits(128), bits), strict=False)
        for text in near(net):
            form = DRAW.choice((str(text), text.exploded, str(text).upper()))
            yield case([str(net).encode()], form)
    for _ in range(20):
        nets = [ipaddress.ip_network((DRAW.getrandbits(8) << 24, DRAW.randint(1, 8)), strict=False)
                for _ in range(DRAW.randint(2, 4))]
        words = [str(net).encode() for net in nets]
        for _ in range(4):
            yield case(words, ipaddress.IPv4Address(DRAW.getrandbits(32)))


if __name__ == "__main__":
    write(sys.argv[1], HEAD, cases())
