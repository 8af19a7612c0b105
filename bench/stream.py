#!/usr/bin/env python3
"""Writes what HAProxy would say on one connection: its HELLO, and then so many requests, one NOTIFY each, with a
response after each that nothing speaks against.

    stream.py COUNT [--kind hit|plain|form|mixed] [--bytes N]

`hit` has a query with a script in it, `plain` is a GET that nothing speaks against, `form` a POST whose form has about N
bytes, and `mixed` one after the other. Frames are written by HAProxy's SPOE.txt, section 3.
"""
import argparse
import sys


def varint(number):
    """SPOE.txt 3: one byte below 240; else the low four bits under 1111, and seven bits a byte behind them."""
    if number < 240:
        return bytes([number])
    out = [(number & 15) | 240]
    number = (number - 240) >> 4
    while number >= 128:
        out.append((number & 127) | 128)
        number = (number - 128) >> 7
    out.append(number)
    return bytes(out)


def text(value):
    return varint(len(value)) + value


def string(value):
    return b"\x08" + text(value)


def binary(value):
    return b"\x09" + text(value)


def uint32(value):
    return b"\x03" + varint(value)


def int32(value):
    return b"\x02" + varint(value)


def ipv4(address):
    return b"\x06" + bytes(int(part) for part in address.split("."))


def frame(kind, stream, number, payload):
    body = bytes([kind]) + b"\x00\x00\x00\x01" + varint(stream) + varint(number) + payload
    return len(body).to_bytes(4, "big") + body


def offer(size=16380):
    payload = text(b"supported-versions") + string(b"2.0")
    payload += text(b"max-frame-size") + uint32(size)
    payload += text(b"capabilities") + string(b"pipelining")
    return frame(1, 0, 0, payload)


def message(name, arguments):
    pairs = b"".join(text(key) + value for key, value in arguments)
    return text(name) + bytes([len(arguments)]) + pairs


def request(identifier, method, path, query, headers, body, source="192.0.2.1"):
    """The twelve arguments of a request, as examples/coraza.cfg has HAProxy send them."""
    return message(b"coraza-req", [
        (b"app", string(b"")),
        (b"id", string(identifier)),
        (b"src-ip", ipv4(source)),
        (b"src-port", int32(40000)),
        (b"dst-ip", ipv4("198.51.100.7")),
        (b"dst-port", int32(443)),
        (b"method", string(method)),
        (b"path", string(path)),
        (b"query", string(query)),
        (b"version", string(b"1.1")),
        (b"headers", string(b"".join(line + b"\r\n" for line in headers) + b"\r\n")),
        (b"body", binary(body)),
    ])


def response(identifier):
    """The six arguments of a response, as examples/coraza.cfg has HAProxy send them."""
    return message(b"coraza-res", [
        (b"app", string(b"")),
        (b"id", string(identifier)),
        (b"version", string(b"1.1")),
        (b"status", int32(200)),
        (b"headers", string(b"Content-Type: text/html\r\n\r\n")),
        (b"body", binary(b"")),
    ])


HOST = b"Host: example.org"
AGENT = b"User-Agent: test"
FORM = b"Content-Type: application/x-www-form-urlencoded"


def form(size):
    fields = []
    while sum(map(len, fields)) + len(fields) < size:
        fields.append(b"field%d=some+words+of+a+text" % len(fields))
    return b"&".join(fields)


def asked(kind, place, size):
    identifier = b"t%d" % place
    if kind == "hit":
        return request(identifier, b"GET", b"/search", b"a=<script>&b=%3Cscript%3E&c=javascript:x", [HOST, AGENT], b"")
    if kind == "form":
        return request(identifier, b"POST", b"/send", b"", [HOST, AGENT, FORM], form(size))
    return request(identifier, b"GET", b"/article", b"page=7&order=newest", [HOST, AGENT], b"")


KINDS = ["plain", "hit", "form"]


def main():
    parser = argparse.ArgumentParser(description=__doc__, formatter_class=argparse.RawDescriptionHelpFormatter)
    parser.add_argument("count", type=int)
    parser.add_argument("--kind", choices=KINDS + ["mixed"], default="mixed")
    parser.add_argument("--bytes", type=int, default=200, dest="size")
    options = parser.parse_args()
    out = sys.stdout.buffer
    out.write(offer())
    for place in range(options.count):
        kind = KINDS[place % len(KINDS)] if options.kind == "mixed" else options.kind
        out.write(frame(3, place + 1, 1, asked(kind, place, options.size)))
        if kind != "hit":
            out.write(frame(3, place + 1, 2, response(b"t%d" % place)))


if __name__ == "__main__":
    main()
