"""The text of rules, as it is written down in docs/RULES.md: lines, words, macros, target lists,
operators and action lists. It is slow, and shares nothing with the program."""

BLANK = b" \t"

SINGLE = """REMOTE_ADDR REMOTE_PORT SERVER_ADDR SERVER_PORT SERVER_NAME UNIQUE_ID REQUEST_METHOD REQUEST_URI
REQUEST_URI_RAW REQUEST_FILENAME REQUEST_BASENAME REQUEST_LINE REQUEST_PROTOCOL QUERY_STRING REQUEST_BODY
REQUEST_BODY_LENGTH REQBODY_PROCESSOR REQBODY_ERROR MULTIPART_STRICT_ERROR INBOUND_DATA_ERROR
ARGS_COMBINED_SIZE FILES_COMBINED_SIZE RESPONSE_STATUS RESPONSE_PROTOCOL RESPONSE_BODY
RESPONSE_CONTENT_LENGTH RESPONSE_CONTENT_TYPE OUTBOUND_DATA_ERROR MATCHED_VAR MATCHED_VAR_NAME""".split()

COLLECTIONS = """ARGS ARGS_GET ARGS_POST ARGS_NAMES ARGS_GET_NAMES ARGS_POST_NAMES REQUEST_HEADERS
REQUEST_HEADERS_NAMES REQUEST_COOKIES REQUEST_COOKIES_NAMES FILES FILES_NAMES RESPONSE_HEADERS
RESPONSE_HEADERS_NAMES TX MATCHED_VARS MATCHED_VARS_NAMES XML""".split()

OTHER_VARIABLES = {"REMOTE_HOST": "REMOTE_ADDR"}
for name in "REQBODY_PROCESSOR_ERROR REQBODY_ERROR_MSG".split():
    OTHER_VARIABLES[name] = "REQBODY_ERROR"
for name in """UNMATCHED_BOUNDARY BOUNDARY_QUOTED BOUNDARY_WHITESPACE DATA_BEFORE DATA_AFTER HEADER_FOLDING
LF_LINE CRLF_LF_LINES MISSING_SEMICOLON SEMICOLON_MISSING INVALID_QUOTING INVALID_PART
INVALID_HEADER_FOLDING FILE_LIMIT_EXCEEDED""".split():
    OTHER_VARIABLES["MULTIPART_" + name] = "MULTIPART_STRICT_ERROR"

REFUSED_VARIABLES = """GEO ENV IP SESSION USER GLOBAL RESOURCE RULE DURATION FULL_REQUEST
FULL_REQUEST_LENGTH""".split()

OPERATORS = """rx rxBytes pm streq contains beginsWith endsWith within eq ge gt le lt ipMatch validateByteRange
validateUrlEncoding validateUtf8Encoding unconditionalMatch noMatch""".split()

FILE_OPERATORS = {"pmFromFile": "pm", "pmf": "pm", "ipMatchFromFile": "ipMatch", "ipMatchF": "ipMatch"}

REFUSED_OPERATORS = """detectSQLi detectXSS geoLookup rbl inspectFile fuzzyHash verifyCC verifyCPF
verifySSN rsub restpath validateSchema validateNid containsWord strmatch""".split()

TRANSFORMATIONS = """base64Decode base64Encode cmdLine compressWhitespace cssDecode escapeSeqDecode
hexDecode hexEncode htmlEntityDecode jsDecode length lowercase uppercase md5 sha1 normalizePath
normalizePathWin removeCommentsChar removeNulls removeWhitespace replaceComments replaceNulls trim
trimLeft trimRight urlDecode urlDecodeUni utf8toUnicode""".split()

OTHER_TRANSFORMATIONS = {"normalisePath": "normalizePath", "normalisePathWin": "normalizePathWin"}

REFUSED_TRANSFORMATIONS = """urlEncode removeComments base64DecodeExt sqlHexDecode parityEven7bit
parityOdd7bit parityZero7bit""".split()

REFUSED_ACTIONS = """exec proxy pause initcol expirevar deprecatevar setenv setuid setsid setrsc xmlns
prepend append""".split()


class Fault(Exception):
    def __init__(self, kind, word=b""):
        super().__init__(kind, word)
        self.kind, self.word = kind, word


def named(table, word, others=None):
    """The name of a table that a word is, without regard to case."""
    low = word.lower()
    for name in table:
        if name.lower().encode() == low:
            return name
    for name, other in (others or {}).items():
        if name.lower().encode() == low:
            return other
    return None


# --- lines and words ---


def lines(text):
    """The logical lines, each its number and its text."""
    try:
        text.decode("utf-8")
    except UnicodeDecodeError as e:
        raise Fault("NotText", text[: e.start].count(b"\n") + 1)
    found, begun = [], None
    for number, line in enumerate(text.split(b"\n"), 1):
        line = line.strip(b" \t\r")
        if begun is None:
            if line == b"" or line.startswith(b"#"):
                continue
            begun = [number, b""]
        goes_on = line.endswith(b"\\")
        begun[1] += line[:-1] if goes_on else line
        if not goes_on:
            found.append(tuple(begun))
            begun = None
    if begun is not None:
        found.append(tuple(begun))
    for number, line in found:
        if len(line) > 65536:
            raise Fault("TooLong", number)
    return [(number, line) for number, line in found if line != b""]


def closing(text, start, quote):
    """The place of the first such byte from there that no backslash stands directly before."""
    for at in range(start, len(text)):
        if text[at : at + 1] == quote and text[at - 1 : at] != b"\\":
            return at
    return None


def words(line):
    found, at = [], 0
    while True:
        while line[at : at + 1] in (b" ", b"\t"):
            at += 1
        if at >= len(line):
            return found
        if line[at : at + 1] == b'"':
            end = closing(line, at + 1, b'"')
            if end is None:
                raise Fault("OpenQuote")
            word = line[at + 1 : end].replace(b'\\"', b'"')
            at = end + 1
            if at < len(line) and line[at] not in BLANK:
                raise Fault("BadWord")
        else:
            end = at
            while end < len(line) and line[end] not in BLANK:
                end += 1
            word = line[at:end]
            if b'"' in word or word.endswith(b"\\"):
                raise Fault("BadWord")
            at = end
        found.append(word)


# --- variables and macros ---


def variable(word):
    return named(SINGLE + COLLECTIONS, word, OTHER_VARIABLES)


def is_refused_variable(word):
    low = word.upper()
    return low.decode("latin-1") in REFUSED_VARIABLES or low.startswith((b"TIME", b"PERF_"))


def macro(text):
    """The parts: bytes for a text, and a tuple for a reference."""
    parts, at = [], 0
    while True:
        start = text.find(b"%{", at)
        end = text.find(b"}", start) if start >= 0 else -1
        if end < 0:
            if text[at:]:
                parts.append(text[at:])
            return parts
        if start > at:
            parts.append(text[at:start])
        parts.append(reference(text[start : end + 1]))
        at = end + 1


def reference(whole):
    name, dot, key = whole[2:-1].partition(b".")
    if is_refused_variable(name):
        raise Fault("RefusedByName", whole)
    var = variable(name)
    if var is None or (dot and (key == b"" or var in SINGLE)):
        raise Fault("BadWord", whole)
    return (var, key) if dot else (var,)


# --- targets ---


def targets(text):
    """Each target: its marks, its variable, how it selects and by what."""
    found, rest = [], text
    while True:
        target, rest = target_at(rest)
        found.append(target)
        if rest is None:
            return found


def piece_to_bar(text, start):
    """The piece up to the next bar, and the text behind that."""
    bar = text.find(b"|", start)
    if bar < 0:
        return text, None
    return text[:bar], text[bar + 1 :]


def target_at(text):
    text = text.lstrip(BLANK)
    marks = text[:2] if text[:2] in (b"!&", b"&!", b"!!", b"&&") else text[:1]
    if marks[:1] not in (b"!", b"&") or marks == b"":
        marks = b""
    body = text[len(marks) :]
    ends = [i for i in (body.find(b":"), body.find(b"|")) if i >= 0]
    end = min(ends) if ends else len(body)
    name = body[:end]
    var = variable(name)
    has_selector = body[end : end + 1] == b":"
    start = len(marks) + end + 1
    kind, chosen = "all", b""
    bad = len(marks) == 2 or var is None
    if not has_selector:
        piece, rest = piece_to_bar(text, 0)
    else:
        piece, rest, kind, chosen = selector(text, start, var == "XML")
        bad = bad or kind is None or var in SINGLE
    piece = piece.strip(BLANK)
    if len(marks) < 2 and is_refused_variable(name.strip(BLANK)):
        raise Fault("RefusedByName", name.strip(BLANK))
    if not has_selector:
        var = variable(name.rstrip(BLANK))
        bad = len(marks) == 2 or var is None
    if bad:
        raise Fault("BadWord", piece)
    return (marks, var, kind, chosen), rest


def selector(text, start, is_xml):
    """The piece, the rest, how it selects (None where it is bad) and by what."""
    first = text[start : start + 1]
    if is_xml or first not in (b"/", b"'"):
        piece, rest = piece_to_bar(text, start)
        name = piece[start:].rstrip(BLANK)
        good = name != b"" and not name.endswith(b"\\")
        return piece, rest, "name" if good else None, name
    if first == b"/":
        end = closing(text, start + 1, b"/")
        if end is None:
            return text, None, None, b""
        piece, rest = piece_to_bar(text, end + 1)
        good = piece[end + 1 :].strip(BLANK) == b""
        return piece, rest, "pattern" if good else None, text[start + 1 : end].replace(b"\\/", b"/")
    end = text.find(b"'", start + 1)
    if end < 0:
        return text, None, None, b""
    piece, rest = piece_to_bar(text, end + 1)
    inner = text[start + 1 : end]
    good = piece[end + 1 :].strip(BLANK) == b""
    if inner.startswith(b"/"):
        close = closing(inner, 1, b"/")
        good = good and close is not None and inner[close + 1 :].strip(BLANK) == b""
        chosen = inner[1:close].replace(b"\\/", b"/") if close is not None else b""
        return piece, rest, "pattern" if good else None, chosen
    good = good and inner != b"" and b"|" not in inner and inner[-1:] not in (b" ", b"\t", b"\\")
    return piece, rest, "name" if good else None, inner


# --- operators ---


def operator(word):
    """Whether it is negated, its kind, the parts of its text, its words and its file."""
    text = word.lstrip(BLANK)
    negated = text.startswith(b"!")
    if negated:
        text = text[1:].lstrip(BLANK)
    if not text.startswith(b"@"):
        return negated, "rx", [text] if text else [], [], None
    end = 1
    while end < len(text) and text[end] not in BLANK:
        end += 1
    name, argument = text[:end], text[end:].lstrip(BLANK)
    if named(REFUSED_OPERATORS, name[1:]):
        raise Fault("RefusedByName", name)
    file_kind = named([], name[1:], FILE_OPERATORS)
    if file_kind:
        return negated, file_kind, [], [], argument
    kind = named(OPERATORS, name[1:])
    if kind is None:
        raise Fault("BadWord", name)
    return (negated, kind) + argument_of(kind, argument) + (None,)


def argument_of(kind, argument):
    if kind in ("rx", "rxBytes"):
        return [argument] if argument else [], []
    if kind == "pm":
        return [], [phrase(word) for word in argument.replace(b"\t", b" ").split(b" ") if word]
    if kind == "ipMatch":
        return [], parted(argument)
    if kind == "validateByteRange":
        return [], [byte_range(word) for word in parted(argument)]
    if kind.startswith("validate") or kind.endswith("Match"):
        if argument:
            raise Fault("BadWord", argument)
        return [], []
    return macro(argument), []


def parted(argument):
    return [w for w in argument.replace(b"\t", b",").replace(b" ", b",").split(b",") if w]


def phrase(word):
    pieces = word.split(b"|")
    if len(pieces) % 2 == 0:
        raise Fault("BadWord", word)
    out = b""
    for at, piece in enumerate(pieces):
        if at % 2 == 0:
            out += piece
        elif piece and len(piece) % 2 == 0 and all(b in b"0123456789abcdefABCDEF" for b in piece):
            out += bytes.fromhex(piece.decode())
        else:
            raise Fault("BadWord", word)
    return out


def number(word, low, high):
    """A number without a sign or a leading zero, between these."""
    if not word.isdigit() or (len(word) > 1 and word.startswith(b"0")):
        return None
    value = int(word)
    return value if low <= value <= high else None


def byte_range(word):
    first, dash, last = word.partition(b"-")
    a = number(first, 0, 255)
    b = number(last, 0, 255) if dash else a
    if a is None or b is None or a > b:
        raise Fault("BadWord", word)
    return word


# --- actions ---

FIRST, LATER, DEFAULTS = "first", "later", "defaults"
ANY = (FIRST, LATER, DEFAULTS)
WHERE = {
    "id": (FIRST,), "phase": (FIRST, DEFAULTS), "msg": (FIRST,), "logdata": (FIRST,), "tag": (FIRST,),
    "log": ANY, "nolog": ANY, "pass": (FIRST, DEFAULTS), "deny": (FIRST, DEFAULTS),
    "drop": (FIRST, DEFAULTS), "redirect": (FIRST, DEFAULTS), "allow": (FIRST,), "block": (FIRST,),
    "status": (FIRST, DEFAULTS), "skip": (FIRST,), "skipAfter": (FIRST,), "chain": (FIRST, LATER),
    "t": ANY, "capture": (FIRST, LATER), "multiMatch": (FIRST, LATER), "setvar": (FIRST, LATER),
    "ctl": (FIRST, LATER), "auditlog": ANY, "noauditlog": ANY, "severity": (FIRST, LATER),
    "ver": (FIRST, LATER), "rev": (FIRST, LATER), "maturity": (FIRST, LATER),
    "accuracy": (FIRST, LATER),
}
FREE = ("severity", "ver", "rev", "maturity", "accuracy", "allow")
PLAIN = ("log", "nolog", "pass", "deny", "drop", "block", "chain", "capture", "multiMatch", "auditlog",
         "noauditlog")


def piece_at(text):
    """The name, the value (None where there is none), the piece and the rest of an action list."""
    start = len(text) - len(text.lstrip(BLANK))
    ends = [i for i in (text.find(b":"), text.find(b",")) if i >= 0]
    end = min(ends) if ends else len(text)
    name = text[start:end].rstrip(BLANK) if end > start else b""
    if text[end : end + 1] != b":":
        return name, None, text[:end].strip(BLANK), text[end + 1 :] if end < len(text) else None
    value = end + 1
    while value < len(text) and text[value] in BLANK:
        value += 1
    if text[value : value + 1] == b"'":
        close = closing(text, value + 1, b"'")
        if close is None:
            raise Fault("OpenQuote", text.strip(BLANK))
        comma = text.find(b",", close)
        stop = comma if comma >= 0 else len(text)
        piece = text[:stop].strip(BLANK)
        if text[close + 1 : stop].strip(BLANK):
            raise Fault("BadWord", piece)
        told = text[value + 1 : close].replace(b"\\'", b"'")
    else:
        comma = text.find(b",", end)
        stop = comma if comma >= 0 else len(text)
        piece = text[:stop].strip(BLANK)
        told = text[end + 1 : stop].strip(BLANK)
        if told.endswith(b"\\"):
            raise Fault("BadWord", piece)
    return name, told, piece, text[stop + 1 :] if stop < len(text) else None


def actions(stand, text):
    """What a list says, as a dictionary."""
    acts = {"tags": [], "transforms": [], "setvars": [], "ctls": []}
    rest = text
    while rest is not None:
        name, value, piece, rest = piece_at(rest)
        action(stand, name, value, piece, acts)
    return acts


def action(stand, name, value, piece, acts):
    if named(REFUSED_ACTIONS, name) or name.lower().startswith(b"sanitise"):
        raise Fault("RefusedByName", name)
    kind = named(WHERE, name)
    bad = Fault("BadWord", piece)
    if kind is None or stand not in WHERE[kind]:
        raise bad
    if kind in PLAIN and value is not None:
        raise bad
    if kind not in PLAIN and kind not in FREE and value is None:
        raise bad
    if kind == "id":
        put(acts, "id", number(value, 1, 999999999), bad)
    elif kind == "phase":
        names = {b"request": 2, b"response": 4, b"logging": 5}
        acts["phase"] = None
        put(acts, "phase", names.get(value.lower()) or number(value, 1, 5), bad)
    elif kind in ("msg", "logdata"):
        acts[kind] = macro(value)
    elif kind == "tag":
        acts["tags"].append(value)
    elif kind in ("log", "nolog"):
        acts["log"] = kind
    elif kind in ("pass", "deny", "drop"):
        acts["disrupt"] = [kind]
    elif kind == "block":
        acts["disrupt"] = None
    elif kind == "redirect":
        if value == b"":
            raise bad
        acts["disrupt"] = ["redirect"] + [macro(value)]
    elif kind == "allow":
        if value is not None and value.lower() not in (b"phase", b"request"):
            raise bad
        acts["disrupt"] = ["allow" + (":" + value.lower().decode() if value is not None else "")]
    elif kind == "status":
        acts["status"] = None
        put(acts, "status", number(value, 100, 999), bad)
    elif kind == "skip":
        acts["skip"] = None
        put(acts, "skip", number(value, 1, 20000), bad)
    elif kind == "skipAfter":
        if value == b"":
            raise bad
        acts["skipAfter"] = value
    elif kind == "t":
        transformation(stand, value, bad, acts)
    elif kind in ("chain", "capture", "multiMatch"):
        acts[kind] = True
    elif kind == "setvar":
        acts["setvars"].append(setvar(value, bad))
    elif kind == "ctl":
        one = ctl(value, bad)
        if one:
            acts["ctls"].append(one)


def put(acts, name, value, bad):
    if value is None or acts.get(name) is not None:
        raise bad
    acts[name] = value


def transformation(stand, value, bad, acts):
    if value.lower() == b"none":
        acts["transforms"] = []
        return
    if stand == DEFAULTS:
        raise bad
    if named(REFUSED_TRANSFORMATIONS, value):
        raise Fault("RefusedByName", value)
    name = named(TRANSFORMATIONS, value, OTHER_TRANSFORMATIONS)
    if name is None:
        raise bad
    acts["transforms"].append(name)


def setvar(value, bad):
    """The name, what happens, and the value, of which the last is None for a delete."""
    body = value[1:] if value.startswith(b"!") else value
    for lasting in (b"ip.", b"session.", b"user.", b"global.", b"resource."):
        if body.lower().startswith(lasting):
            raise Fault("RefusedByName", value)
    if not body.lower().startswith(b"tx."):
        raise bad
    body = body[3:]
    if value.startswith(b"!"):
        if body == b"":
            raise bad
        return macro(body), "delete", None
    name, equals, text = body.partition(b"=")
    if name == b"":
        raise bad
    if not equals:
        return macro(name), "=", [b"1"]
    if text[:1] in (b"+", b"-"):
        return macro(name), "=" + text[:1].decode(), macro(text[1:])
    return macro(name), "=", macro(text)


def ctl(value, bad):
    name, equals, text = value.partition(b"=")
    if name.lower() in (b"ruleremovebymsg", b"ruleremovetargetbymsg"):
        raise Fault("RefusedByName", value)
    if not equals:
        raise bad
    if name.lower() in (b"auditengine", b"auditlogparts", b"debugloglevel", b"forcerequestbodyvariable"):
        return None
    values = {
        "ruleEngine": ("On", "Off", "DetectionOnly"), "requestBodyAccess": ("On", "Off"),
        "responseBodyAccess": ("On", "Off"), "requestBodyProcessor": ("URLENCODED", "XML"),
    }
    kind = named(list(values) + ["ruleRemoveById", "ruleRemoveByTag"], name)
    if kind in values:
        chosen = named(values[kind], text)
        if chosen is None:
            raise bad
        return kind, chosen
    if kind == "ruleRemoveById":
        first, dash, last = text.partition(b"-")
        a = number(first, 1, 999999999)
        b = number(last, 1, 999999999) if dash else a
        if a is None or b is None or a > b:
            raise bad
        return kind, a, b
    if kind == "ruleRemoveByTag" and text:
        return kind, text
    raise bad
