"""Cases of the variables of a transaction, by transaction.py and seclang.py."""

import sys

import seclang
import transaction
from case_words import line, write

HEAD = """Variables of a transaction: REQUEST, RESPONSE, STEPS, and `select` with a target list (and removed
targets in a second line), for each row its full name and its value; or `expand` with a macro, its text.
A request begins with METHOD TARGET VERSION SRC PORT DST PORT ID, a response with STATUS VERSION, and both
go on with header lines, an empty line and the body.
By a model in Python of the written rules: tools/cases/variables.py and transaction.py."""

FORM = (b"POST /a/b\\c.php?xa=1&Y=2&xb=%20 1.1 192.0.2.1 40000 - - r1\nHOST: [::1]:80\r\n"
        b"Content-Type: application/X-www-form-urlencoded; charset=utf-8\r\nCookie: a=b; c; A=d\r\nX-A: 1\r\n\nz=34&w&y=%41")

REQUESTS = [
    FORM,
    b"GET",
    b"- /",
    b"GET / - - - - - -",
    b"GET ?",
    b"GET /?",
    b"PUT /a?b?c 2.0 2001:db8::0:1 0 ::ffff:1.2.3.4 65535 id",
    b"GET /x/ 1.0\nhost: example.org:8080\n",
    b"GET /x/y\nHost: example.org\nhost: other\nContent-Type: text/xml\n\n<a/>",
    b"GET \\x\\y\nhost: [::1\ncontent-type: application/x-www-form-urlencoded\n\na=1&b=2",
    b"GET /%41\nhost: [a]b]:1\ncontent-type: application/x-www-form-urlencoded,x\n\n",
    b"GET /\nhost:\ncontent-type:\napplication/x-www-form-urlencoded: x\n\na=1",
    b"GET /?a=1&b=2&a=3&A=4&ab=5&=6&c\nx: 1\nX: 2\ny: 3\ncookie: k=v; l=w; K=u\n",
]

RESPONSES = [b"-", b"200", b"503 1.0\nContent-Type: text/html ; charset=x\nA: 1\na: 2\n\nbody", b"404 -\nx: y\n\n"]

STEPS = [
    b"", b"body URLENCODED 3", b"body URLENCODED 100", b"body - 5", b"body XML 0", b"processor XML", b"processor URLENCODED",
    b"processor XML\nbody URLENCODED 100", b"response on", b"response off",
    b"put A 1\nput b 2\nput a 3\ncapture x - y", b"put a 1\nput b 2\ndelete A\nput a 3\nput c 4\ndelete x",
    b"matched ARGS:a 1\nmatched REQUEST_URI /", b"matched ARGS:a 1\nforget\nmatched TX:0 z",
    b"capture 0 1 2 3 4 5 6 7 8 9 10 11\nput 0 a\nput 3 b", b"capture - - -", b"capture a\ncapture - b",
]

SELECTED = [
    ("ARGS", [0, 12], [0, 1, 2]), ("ARGS|!ARGS:a", [0, 12], [0, 2]), ("ARGS:a|ARGS:A|&ARGS:a", [12], [0]),
    ("ARGS:/^a/|&ARGS:/^a/|!ARGS:ab", [12], [0]), ("&ARGS|&ARGS_GET|&ARGS_POST", [0, 12, 9], [0, 1, 2]),
    ("!ARGS", [12], [0]), ("ARGS:/B$/", [0, 12], [0]), ("ARGS_NAMES|ARGS_GET_NAMES|ARGS_POST_NAMES", [0, 12], [0, 2]),
    ("ARGS_NAMES:a|!ARGS_NAMES:/b/", [12], [0]), ("REQUEST_HEADERS:x|REQUEST_HEADERS_NAMES:X", [0, 12], [0]),
    ("REQUEST_HEADERS|!REQUEST_HEADERS:/^x/", [0, 12], [0]), ("REQUEST_COOKIES:k|REQUEST_COOKIES_NAMES", [0, 12], [0]),
    ("&REQUEST_COOKIES:/k|l/|!REQUEST_COOKIES:L", [12], [0]), ("ARGS\nARGS:a", [12], [0]), ("ARGS|&ARGS\nARGS", [12], [0]),
    ("&ARGS|ARGS_GET\nARGS:a|TX", [12], [0]), ("TX|TX:a|&TX", [1], [10, 11, 14, 15, 16]), ("TX:/[0-9]/|!TX:3", [1], [14]),
    ("MATCHED_VARS|MATCHED_VARS_NAMES|&MATCHED_VARS|MATCHED_VAR|MATCHED_VAR_NAME", [1], [0, 12, 13]),
    ("MATCHED_VARS:/^ARGS/|MATCHED_VARS_NAMES:ARGS:a", [1], [12]), ("FILES|FILES_NAMES|XML|&XML:/x|&FILES|FILES_COMBINED_SIZE", [0], [0]),
    ("REQUEST_URI|REQUEST_LINE|REQUEST_LINE|&REQUEST_LINE", [0, 1, 2, 3, 4, 5, 6], [0]), ("REQUEST_URI|!REQUEST_URI", [0], [0]),
    ("&RESPONSE_BODY|&REQUEST_BODY|&MATCHED_VAR", [0], [0, 1]),
]

EXPANDED = [
    "%{REQUEST_METHOD} %{ARGS.a} %{ARGS.A}|%{ARGS.none}|%{ARGS}", "%{TX.a}%{TX.0}%{TX.B}", "%{MATCHED_VAR} in %{MATCHED_VAR_NAME}",
    "plain", "", "%{REQUEST_HEADERS.HOST}", "%{REQUEST_COOKIES.K}%{ARGS_NAMES.xa}", "%{RESPONSE_STATUS}%{RESPONSE_BODY}", "%{XML}%{FILES.a}",
]


def select_case(request, response, steps, text):
    model = transaction.Transaction(request, response)
    for step in steps.split(b"\n"):
        model.step(step)
    lines = [seclang.targets(one) for one in text.encode().split(b"\n")]
    rows = model.select(lines[0], lines[1] if lines[1:] else [])
    return line(request, response, steps, "select", text.encode(), *[w for row in rows for w in row])


def expand_case(request, response, steps, text):
    model = transaction.Transaction(request, response)
    for step in steps.split(b"\n"):
        model.step(step)
    return line(request, response, steps, "expand", text.encode(), model.expand(seclang.macro(text.encode())))


OF_REQUEST = "|".join(n for n in seclang.SINGLE if not n.startswith(("RESPONSE", "MATCHED")))
OF_HEADERS = "REQUEST_HEADERS|REQUEST_COOKIES|ARGS|SERVER_NAME|REQBODY_PROCESSOR"
OF_BODY = "REQUEST_BODY|REQUEST_BODY_LENGTH|ARGS_POST|REQBODY_PROCESSOR|INBOUND_DATA_ERROR|ARGS_COMBINED_SIZE"
OF_RESPONSE = "|".join([n for n in seclang.SINGLE if n.startswith("RESPONSE")] + ["RESPONSE_HEADERS", "RESPONSE_HEADERS_NAMES"])


def cases():
    for request in REQUESTS:
        yield select_case(request, b"-", b"", OF_REQUEST)
        yield select_case(request, b"-", b"", OF_HEADERS)
        for steps in STEPS[:8]:
            yield select_case(request, b"-", steps, OF_BODY)
    for name in seclang.SINGLE + seclang.COLLECTIONS:
        yield select_case(FORM, RESPONSES[2], b"body URLENCODED 8\nresponse on\nput a 1\nmatched ARGS:a 1", name)
        yield select_case(FORM, b"-", b"", "&" + name)
    for response in RESPONSES:
        for steps in (b"", b"response on", b"response off", b"response off\nresponse on"):
            yield select_case(FORM, response, steps, OF_RESPONSE)
    for text, requests, steps in SELECTED:
        for request in requests:
            for one in steps:
                yield select_case(REQUESTS[request], b"-", STEPS[one], text)
    for text in EXPANDED:
        for request in (0, 1, 12):
            for steps in (STEPS[0], STEPS[10], STEPS[12], b"response on"):
                yield expand_case(REQUESTS[request], RESPONSES[2], steps, text)
    yield expand_case(b"GET", b"-", b"put a " + b"x" * 50 + b"\nput b " + b"y" * 50, "%{TX.a}" * 5 + "%{TX.b}")
    long = b"z" * 255
    yield expand_case(b"GET", b"-", b"put a " + long, "%{TX.a}" * 257 + "|")
    yield expand_case(b"GET", b"-", b"put a " + long, "%{TX.a}" * 257 + "ab")


if __name__ == "__main__":
    write(sys.argv[1], HEAD, cases())
