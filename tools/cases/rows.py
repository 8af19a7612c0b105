"""Cases of rows of header fields, cookies and arguments, and of texts of addresses, by transaction.py."""

import ipaddress
import random
import sys

import transaction
from case_words import line, write

HEAD = """Rows, each as its name and its value: `headers` and `cookies` of header lines, `arguments` of a query.
And `address`, of 4 bytes, 16 or none, as text.
By a model in Python of the written rules; escapes by urllib, addresses by ipaddress: tools/cases/rows.py."""

DRAW = random.Random(17)

HEADERS = [
    b"", b"host: a.example\r\nx: 1\r\n\r\n", b"A:1\nB : 2\n\tC:\t3 \t\n", b"no colon\n: v\n \t: v\nk:\n", b"x: a:b\r\r\n",
    b"n\xff: \xfe", b"a: 1\rb: 2\n", b"x:\r\n", b"x:1\ny: 2", b"\r\n\r\na:1", b"a\r:1", b"a:1\r", b"\ra:1\n", b":", b"::", b"a::",
    b"a b: c d\n", b"a:1\n b:2\n", b"a:1\n\n\nb:2", b"a:\x00\n", b"a:1\r\n\tfolded: 2\r\n", b"a : : b", b"\ta\t:\tb\t", b"a:\r", b"a:1\na:2\nA:3",
]

COOKIES = [
    b"", b"host: a=1\r\ncookies: a=1\r\n", b"Cookie: a=1; b=2;; c ;=d; e=f=g;\t\r\nx: z=1\r\nCOOKIE: \xff = \xfe\r\n", b"cookie:\r\n",
    b"cookie: ;\t; =\n", b"cookie: a", b"cookie: a=", b"cookie: =a", b"cookie: a=b,c=d", b"cookie: \"a=b\"; c=\"d;e\"", b"cookie: a = b ; c",
    b"cookie: a=1;a=2", b"cookie:a=1\ncookie:b=2", b"x-cookie: a=1", b"cookie : a=1", b"cookie: ==", b"cookie: a==", b"cookie: a=%41+b",
    b"cookie: \t \t", b"cookie: a;b;c", b"no cookie\ncookie: a=1",
]

ARGUMENTS = [
    b"", b"a=1&b=%41+%zz&&=x", b"a", b"a=b=c", b"%ff=%C3%28&x=%", b"&&", b"=", b"a;b=1", b"%3d=%26", b"q=%4", b"a+b=+", b"a=1&a=2&A=3", b"a=%2B",
    b"a=%25%34%31", b"%", b"%%", b"%%41", b"%4%41", b"%4g", b"%g4", b"a=%u0041", b"a=%00", b"a=\x00\xff", b"a=%41%", b"a=%e2%82%ac", b"?a=1", b"a=1#b=2",
    b"a=1&", b"&a=1", b"=&=", b"a&b&c", b"a=&b=", b"+=+", b"%20=%20", b"%2", b"a=%2+", b"a=%+2", b"a[]=1&a[b]=2", b"a=1;b=2", b"%26=1&%3D", b"a==",
]

PIECES = {
    "headers": [b"a", b"B", b":", b":", b" ", b"\t", b"\n", b"\r\n", b"\r", b"1", b"\xff"],
    "cookies": [b"cookie: ", b"Cookie:", b"a", b"b", b"=", b"=", b";", b"; ", b" ", b"\n", b"x: "],
    "arguments": [b"a", b"b", b"=", b"&", b"+", b"%", b"4", b"1", b"%41", b"%zz", b"%e", b";"],
}


def rows_of(call, text):
    if call == "headers":
        return transaction.header_rows(text)
    if call == "cookies":
        return transaction.cookie_rows(transaction.header_rows(text))
    return transaction.argument_rows(text)


def case(call, text):
    return line(call, text, *[word for row in rows_of(call, text) for word in row])


def addresses():
    yield b""
    for text in """0.0.0.0 192.0.2.255 255.255.255.255 127.0.0.1 :: ::1 1:: 2001:db8::1 ::ffff:192.0.2.1 1:0:0:2::1
            2001:db8:0:1:1:1:1:1 2001:db8::1:0:0:1 fe80:: ::2:0:0:1 1:0:2:0:3:0:4:0 0:1:0:1:0:1:0:1 ::ffff:0:0
            ::1.2.3.4 ::fffe:1.2.3.4 64:ff9b::1.2.3.4 ffff:ffff:ffff:ffff:ffff:ffff:ffff:ffff 0:0:1:: 1:0:0:0:1:0:0:0
            1:0:0:0:1:0:0:1 ::ffff:255.255.255.255 1:2:3:4:5:6:7:0 0:2:3:4:5:6:7:8 a:b:c:d:e:f:0:0 ::ffff:1:0:0""".split():
        yield ipaddress.ip_address(text).packed
    for _ in range(20):
        yield DRAW.randbytes(4)
    for _ in range(40):
        groups = [DRAW.choice((0, 0, 1, 0xABC, 0xFFFF)) for _ in range(8)]
        yield b"".join(g.to_bytes(2, "big") for g in groups)


def cases():
    for call, texts in (("headers", HEADERS), ("cookies", COOKIES), ("arguments", ARGUMENTS)):
        for text in texts:
            yield case(call, text)
        for _ in range(50):
            yield case(call, b"".join(DRAW.choice(PIECES[call]) for _ in range(DRAW.randint(1, 9))))
    for octets in addresses():
        yield line("address", octets, transaction.address_text(octets))


if __name__ == "__main__":
    write(sys.argv[1], HEAD, cases())
