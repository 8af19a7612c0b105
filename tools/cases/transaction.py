"""The rows of a transaction, as they are written down in docs/EVALUATION.md: slow, and apart from the
program. Escapes are read by urllib, and addresses are written by ipaddress."""

import ipaddress
import re
from urllib.parse import unquote_to_bytes

BLANK = b" \t"


def header_rows(text):
    rows = []
    for one in text.split(b"\n"):
        one = one[:-1] if one.endswith(b"\r") else one
        name, colon, value = one.partition(b":")
        if colon and name.strip(BLANK):
            rows.append((name.strip(BLANK), value.strip(BLANK)))
    return rows


def cookie_rows(headers):
    rows = []
    for name, value in headers:
        if name.lower() == b"cookie":
            for piece in value.split(b";"):
                piece = piece.strip(BLANK)
                if piece:
                    first, _, rest = piece.partition(b"=")
                    rows.append((first, rest))
    return rows


def decoded(raw):
    return unquote_to_bytes(raw.replace(b"+", b" "))


def argument_rows(text):
    rows = []
    for piece in text.split(b"&"):
        if piece:
            name, _, value = piece.partition(b"=")
            rows.append((decoded(name), decoded(value)))
    return rows


def address_text(data):
    if data == b"":
        return b""
    ip = ipaddress.ip_address(data)
    if ip.version == 6 and ip.ipv4_mapped is not None:
        return b"::ffff:" + str(ip.ipv4_mapped).encode()
    return str(ip).encode()


def message(text):
    """The words of the first line, the header lines, and the body."""
    head, _, rest = text.partition(b"\n")
    if rest.startswith(b"\n"):
        headers, body = b"", rest[1:]
    else:
        headers, parted, body = rest.partition(b"\n\n")
        headers = headers + b"\n" if parted else headers
    return head.split(b" "), headers, body


def first(rows, name):
    """The value of the first row of this name, empty where there is none."""
    return next((value for other, value in rows if other.lower() == name.lower()), b"")


class Transaction:
    def __init__(self, request, response):
        words, headers, self.body = message(request)
        names = ("method", "target", "version", "src", "src_port", "dst", "dst_port", "id")
        values = [b"GET", b"/", b"1.1", b"192.0.2.1", b"46354", b"198.51.100.7", b"443", b"t10"]
        values[: len(words)] = words
        told = {n: b"" if v == b"-" else v for n, v in zip(names, values)}
        self.told = told
        self.path, _, self.query = told["target"].partition(b"?")
        self.headers = header_rows(headers)
        self.opened, self.chosen, self.response, self.with_body = None, b"", None, False
        self.answer = message(response) if response != b"-" else None
        self.tx, self.captured, self.matched = [], [], []

    def step(self, step):
        words = step.split(b" ")
        if words[0] == b"processor":
            self.chosen = words[1]
        elif words[0] == b"body":
            self.opened = (b"" if words[1] == b"-" else words[1], int(words[2]))
        elif words[0] == b"response":
            self.response, self.with_body = self.answer, words[1] == b"on"
        elif words[0] == b"put":
            self.put(words[1].lower(), words[2])
        elif words[0] == b"delete":
            self.tx = [row for row in self.tx if row[0] != words[1].lower()]
        elif words[0] == b"capture":
            groups = words[1:][:10]
            self.captured = [(b"%d" % n, g) for n, g in enumerate(groups) if g != b"-"]
        elif words[0] == b"matched":
            self.matched.append((words[1], words[2]))
        elif words[0] == b"forget":
            self.matched = []

    def put(self, name, value):
        rest = [row for row in self.tx if row[0] != name]
        if sum(len(a) + len(b) for a, b in rest) + len(name) + len(value) > 65536:
            return
        if name in [row[0] for row in self.tx]:
            self.tx = [(name, value) if row[0] == name else row for row in self.tx]
        else:
            self.tx.append((name, value))

    def processor(self):
        """The processor of the opened body, and before that the one that would open it."""
        if self.opened:
            return self.opened[0]
        if self.chosen:
            return self.chosen
        media = re.split(b"[;, \t]", first(self.headers, b"content-type"))[0].lower()
        return b"URLENCODED" if media == b"application/x-www-form-urlencoded" else b""

    def limited(self):
        return self.body[: self.opened[1]]

    def post(self):
        if self.opened and self.opened[0] == b"URLENCODED":
            return argument_rows(self.limited())
        return []

    def uri(self):
        return self.path + (b"?" + self.query if self.query else b"")

    def protocol(self, version):
        return b"HTTP/" + version if version else b""

    def server_name(self):
        host = first(self.headers, b"host")
        if host.startswith(b"["):
            return host[: host.index(b"]") + 1] if b"]" in host else host
        return host.partition(b":")[0]

    def rows(self, var):
        """The rows of a variable, each its name and its value."""
        if var.endswith("_NAMES") and var != "MATCHED_VARS_NAMES":
            return [(name, name) for name, _ in self.rows(var[: -len("_NAMES")] if var != "FILES_NAMES" else "FILES")]
        one = self.single(var)
        if one is not None:
            return [(b"", one)]
        lists = {
            "ARGS_GET": lambda: argument_rows(self.query), "ARGS_POST": self.post,
            "ARGS": lambda: argument_rows(self.query) + self.post(),
            "REQUEST_HEADERS": lambda: self.headers, "REQUEST_COOKIES": lambda: cookie_rows(self.headers),
            "RESPONSE_HEADERS": lambda: header_rows(self.response[1]) if self.response else [],
            "TX": lambda: self.captured + self.tx, "MATCHED_VARS": lambda: self.matched,
            "MATCHED_VARS_NAMES": lambda: [(name, name) for name, _ in self.matched],
        }
        # Those of a collection that is always empty, or of a single variable that is not there.
        return lists.get(var, lambda: [])()

    def single(self, var):
        told = self.told
        size = lambda rows: b"%d" % sum(len(a) + len(b) for a, b in rows)
        always = {
            "REMOTE_ADDR": lambda: self.address("src"), "SERVER_ADDR": lambda: self.address("dst"),
            "REMOTE_PORT": lambda: told["src_port"], "SERVER_PORT": lambda: told["dst_port"],
            "SERVER_NAME": self.server_name, "UNIQUE_ID": lambda: told["id"],
            "REQUEST_METHOD": lambda: told["method"], "QUERY_STRING": lambda: self.query,
            "REQUEST_FILENAME": lambda: self.path, "REQUEST_BASENAME": lambda: re.split(rb"[/\\]", self.path)[-1],
            "REQUEST_URI": self.uri, "REQUEST_URI_RAW": self.uri,
            "REQUEST_PROTOCOL": lambda: self.protocol(told["version"]),
            "REQUEST_LINE": lambda: b" ".join([told["method"], self.uri(), self.protocol(told["version"])]),
            "ARGS_COMBINED_SIZE": lambda: size(self.rows("ARGS")), "REQBODY_PROCESSOR": self.processor,
            "INBOUND_DATA_ERROR": lambda: b"1" if self.opened and len(self.body) > self.opened[1] else b"0",
            "REQBODY_ERROR": lambda: b"0", "MULTIPART_STRICT_ERROR": lambda: b"0",
            "OUTBOUND_DATA_ERROR": lambda: b"0", "FILES_COMBINED_SIZE": lambda: b"0",
        }
        if var in always:
            return always[var]()
        if var in ("REQUEST_BODY", "REQUEST_BODY_LENGTH") and self.opened:
            return self.limited() if var == "REQUEST_BODY" else b"%d" % len(self.limited())
        if var in ("MATCHED_VAR", "MATCHED_VAR_NAME") and self.matched:
            return self.matched[-1][1 if var == "MATCHED_VAR" else 0]
        return self.of_response(var) if self.response else None

    def of_response(self, var):
        words, headers, body = self.response
        words = words + [b"1.1"] if len(words) == 1 else words
        if var == "RESPONSE_STATUS":
            return b"%d" % int(words[0])
        if var == "RESPONSE_PROTOCOL":
            return self.protocol(b"" if words[1] == b"-" else words[1])
        if var == "RESPONSE_CONTENT_TYPE":
            return first(header_rows(headers), b"content-type").partition(b";")[0].strip(BLANK)
        if var == "RESPONSE_CONTENT_LENGTH":
            return b"%d" % len(body)
        if var == "RESPONSE_BODY" and self.with_body:
            return body
        return None

    def address(self, side):
        try:
            return address_text(ipaddress.ip_address(self.told[side].decode()).packed)
        except ValueError:
            return b""

    # --- selection and macros ---

    def selected(self, target, name):
        _, _, kind, chosen = target
        if kind == "all":
            return True
        if kind == "name":
            return chosen.lower() == name.lower()
        return re.search(chosen, name, re.I | re.S) is not None

    def select(self, targets, removed):
        """Each value that a rule looks at, by its full name."""
        found = []
        for target in targets:
            marks, var, kind, chosen = target
            if marks == b"!":
                continue
            without = [t for t in targets if t[0] == b"!" and t[1] == var] + [t for t in removed if t[1] == var]
            rows = [row for row in self.rows(var) if self.selected(target, row[0])
                    and not any(self.selected(t, row[0]) for t in without)]
            if marks == b"&":
                rows, var = [(chosen, b"%d" % len(rows))], "&" + var
            for name, value in rows:
                found.append((var.encode() + (b":" + name if name else b""), value))
        return found

    def expand(self, parts):
        out = b""
        for part in parts:
            if isinstance(part, bytes):
                out += part
            elif len(part) == 1:
                out += next((value for _, value in self.rows(part[0])), b"")
            else:
                out += first(self.rows(part[0]), part[1])
        return out[:65536]
