"""Rule files as a listing in canonical text, or the first fault, as it is written down in docs/RULES.md.
It is slow, and shares nothing with the program."""

import seclang
from seclang import Fault, named

SWITCH = ["On", "Off"]
SETTINGS = {
    "SecRuleEngine": ["On", "Off", "DetectionOnly"],
    "SecRequestBodyAccess": SWITCH,
    "SecRequestBodyLimit": None,
    "SecRequestBodyLimitAction": ["Reject", "ProcessPartial"],
    "SecResponseBodyAccess": SWITCH,
}
FIRST_SETTINGS = ["On", "On", "131072", "Reject", "Off"]

KNOWN = """SecRule SecAction SecMarker SecDefaultAction Include SecRuleRemoveById
SecRuleRemoveByTag SecPatternMode""".split() + list(SETTINGS)

PASSED = """SecArgumentSeparator SecArgumentsLimit SecAuditEngine SecAuditLog SecAuditLogDir SecAuditLogDirMode
SecAuditLogFileMode SecAuditLogFormat SecAuditLogParts SecAuditLogRelevantStatus SecAuditLogStorageDir
SecAuditLogType SecCollectionTimeout SecComponentSignature SecConnEngine SecCookieFormat SecDataDir
SecDebugLog SecDebugLogLevel SecPcreMatchLimit SecPcreMatchLimitRecursion SecRequestBodyInMemoryLimit
SecRequestBodyJsonDepthLimit SecRequestBodyNoFilesLimit SecResponseBodyLimit SecResponseBodyLimitAction
SecResponseBodyMimeType SecResponseBodyMimeTypesClear SecSensorId SecServerSignature SecStatusEngine
SecTmpDir SecUnicodeMapFile SecWebAppId""".split()

REFUSED = """SecRemoteRules SecRemoteRulesFailAction SecRuleScript SecRuleRemoveByMsg
SecRuleUpdateTargetByMsg SecUploadDir SecUploadFileLimit SecUploadFileMode SecUploadKeepFiles
SecGeoLookupDb SecGsbLookupDb SecHttpBlKey""".split()


class Placed(Exception):
    """A fault with its file and its line."""

    def __init__(self, kind, file, line, word):
        super().__init__(kind, file, line, word)


class Reader:
    def __init__(self, files):
        self.files, self.total = files, 0
        self.items, self.seen = [], set()
        self.settings = list(FIRST_SETTINGS)
        self.by_bytes = False
        self.defaults = {phase: (["pass"], 0, True) for phase in range(1, 6)}
        self.ids, self.tags = [], []
        self.open = None

    def content(self, name, where, word):
        """The text of a file that this word of this place names."""
        if name not in self.files:
            raise Placed("NoFile", *where, word)
        text = self.files[name]
        self.total += len(text)
        if len(text) > 4194304 or self.total > 16777216:
            raise Placed("TooLong", *where, word)
        return text

    def file(self, name, depth, where, word):
        text = self.content(name, where, word)
        try:
            lines = seclang.lines(text)
        except Fault as fault:
            raise Placed(fault.kind, name, fault.word, b"")
        for number, line in lines:
            try:
                self.directive(name, number, seclang.words(line), depth)
            except Fault as fault:
                raise Placed(fault.kind, name, number, fault.word)
        self.no_open_chain()

    def no_open_chain(self):
        if self.open:
            raise Placed("OpenChain", *self.open, b"")

    def directive(self, file, number, words, depth):
        written, words = words[0], words[1:]
        if named(REFUSED, written):
            raise Fault("RefusedByName", written)
        passed = named(PASSED, written)
        name = named(KNOWN, written)
        if not passed and not name:
            raise Fault("UnknownDirective", written)
        if name not in ("SecRule", "SecAction"):
            self.no_open_chain()
        if passed:
            return
        counts = {"SecRule": (2, 3), "SecRuleRemoveById": range(1, 10**6)}
        if len(words) not in counts.get(name, (1,)):
            raise Fault("BadWord", written)
        self.known(name, file, number, words, depth)

    def known(self, name, file, number, words, depth):
        if name in ("SecRule", "SecAction"):
            self.link(name, file, number, words)
        elif name == "SecMarker":
            self.items.append(words[0])
        elif name == "SecDefaultAction":
            self.default(words[0])
        elif name == "Include":
            self.include(file, number, words[0], depth)
        elif name == "SecRuleRemoveById":
            for word in words:
                first, dash, last = word.partition(b"-")
                a = seclang.number(first, 1, 999999999)
                b = seclang.number(last, 1, 999999999) if dash else a
                if a is None or b is None or a > b:
                    raise Fault("BadWord", word)
                self.ids.append((a, b))
        elif name == "SecRuleRemoveByTag":
            self.tags.append(words[0])
        elif name == "SecPatternMode":
            mode = named(["Unicode", "Bytes"], words[0])
            if mode is None:
                raise Fault("BadWord", words[0])
            self.by_bytes = mode == "Bytes"
        else:
            self.setting(name, words[0])

    def setting(self, name, word):
        values = SETTINGS[name]
        if values is None:
            value = seclang.number(word, 1, 1073741824)
        else:
            value = named(values, word)
        if value is None:
            raise Fault("BadWord", word)
        self.settings[list(SETTINGS).index(name)] = str(value)

    def default(self, word):
        acts = seclang.actions(seclang.DEFAULTS, word)
        if acts.get("phase") is None:
            raise Fault("BadWord", word)
        self.defaults[acts["phase"]] = (
            acts.get("disrupt") or ["pass"], acts.get("status") or 0, acts.get("log") != "nolog")

    def include(self, file, number, word, depth):
        if any(mark in word for mark in (b"*", b"?", b"[")):
            raise Fault("RefusedByName", word)
        if depth + 1 > 8:
            raise Fault("IncludeDepth", word)
        self.file(beside(file, word), depth + 1, (file, number), word)

    def link(self, name, file, number, words):
        targets, op, listed = None, (False, "unconditionalMatch", [], [], None), words[-1]
        if name == "SecRule":
            targets = seclang.targets(words[0])
            op = self.operator(file, number, words[1])
            listed = words[2] if words[2:] else None
        stand = seclang.LATER if self.open else seclang.FIRST
        acts = {"tags": [], "transforms": [], "setvars": [], "ctls": []}
        if listed is not None:
            acts = seclang.actions(stand, listed)
        if stand == seclang.FIRST:
            self.first(acts)
        rule = self.items[-1]
        if len(rule["links"]) == 32:
            raise Fault("TooLong", b"")
        rule["links"].append((targets, op, acts))
        self.open = (file, number) if acts.get("chain") else None

    def first(self, acts):
        if acts.get("id") is None:
            raise Fault("NoId")
        if acts["id"] in self.seen:
            raise Fault("DoubleId", b"%d" % acts["id"])
        self.seen.add(acts["id"])
        if len(self.seen) > 20000:
            raise Fault("TooLong", b"%d" % acts["id"])
        phase = acts.get("phase") or 2
        disrupt, status, log = self.defaults[phase]
        self.items.append({
            "id": acts["id"], "phase": phase, "acts": acts, "links": [],
            "disrupt": acts.get("disrupt") or disrupt, "status": acts.get("status") or status,
            "log": acts["log"] == "log" if acts.get("log") else log,
        })

    def operator(self, file, number, word):
        negated, kind, parts, words, name = seclang.operator(word)
        if name is not None:
            if any(mark in name for mark in (b"*", b"?", b"[")):
                raise Fault("RefusedByName", name)
            text = self.content(beside(file, name), (file, number), name)
            words = [one.strip(b" \t\r") for one in text.split(b"\n")]
            words = [one for one in words if one and not one.startswith(b"#")]
        if kind == "ipMatch":
            from addresses import block

            for one in words:
                if block(one) is None:
                    raise Fault("BadWord", one)
        if kind == "rx" and self.by_bytes:
            kind = "rxBytes"
        return negated, kind, parts, words, None

    def is_removed(self, item):
        if isinstance(item, bytes):
            return False
        if any(first <= item["id"] <= last for first, last in self.ids):
            return True
        return any(tag in item["acts"]["tags"] for tag in self.tags)


def beside(file, word):
    return word if word.startswith(b"/") else file[: file.rfind(b"/") + 1] + word


def listing(names, files):
    """The lines of the canonical text."""
    reader = Reader(files)
    for name in names:
        reader.file(name, 0, (name, 0), b"")
    settings = ['%s "%s"' % pair for pair in zip(SETTINGS, reader.settings)]
    lines = [one.encode() for one in settings]
    for item in reader.items:
        if not reader.is_removed(item):
            lines += printed(item)
    return lines


# --- canonical text ---


def word(text):
    return b'"' + text.replace(b'"', b'\\"') + b'"'


def value(text):
    return b"'" + text.replace(b"'", b"\\'") + b"'"


def macro(parts):
    out = b""
    for part in parts:
        if isinstance(part, bytes):
            out += part
        else:
            out += b"%{" + part[0].encode() + (b"." + part[1] if len(part) == 2 else b"") + b"}"
    return out


def printed(item):
    if isinstance(item, bytes):
        return [b"SecMarker " + word(item)]
    lines = []
    for at, (targets, op, acts) in enumerate(item["links"]):
        listed = (first_actions(item) if at == 0 else []) + link_actions(acts)
        if at + 1 < len(item["links"]):
            listed.append(b"chain")
        if targets is None:
            lines.append(b"SecAction " + word(b",".join(listed) or b"severity:0"))
        else:
            words = [word(b"|".join(target(one) for one in targets)), word(operator(op))]
            words += [word(b",".join(listed))] if listed else []
            lines.append(b"SecRule " + b" ".join(words))
    return lines


def target(one):
    marks, var, kind, chosen = one
    ends = {"all": b"", "name": b":" + chosen, "pattern": b":/" + chosen.replace(b"/", b"\\/") + b"/"}
    return marks + var.encode() + ends[kind]


def phrase(text):
    return b"".join(bytes([b]) if 33 <= b <= 126 and b not in b'"|\\' else b"|%02x|" % b for b in text)


def operator(op):
    negated, kind, parts, words, _ = op
    argument = macro(parts)
    if kind == "pm":
        argument = b" ".join(phrase(one) for one in words)
    elif words:
        argument = b",".join(words)
    return (b"!@" if negated else b"@") + kind.encode() + (b" " + argument if argument else b"")


def first_actions(item):
    acts, listed = item["acts"], [b"id:%d" % item["id"], b"phase:%d" % item["phase"]]
    disrupt = item["disrupt"]
    listed.append(disrupt[0].encode() + (b":" + value(macro(disrupt[1])) if disrupt[1:] else b""))
    if item["status"]:
        listed.append(b"status:%d" % item["status"])
    listed.append(b"log" if item["log"] else b"nolog")
    for name in ("msg", "logdata"):
        if acts.get(name):
            listed.append(name.encode() + b":" + value(macro(acts[name])))
    listed += [b"tag:" + value(tag) for tag in acts["tags"]]
    if acts.get("skip"):
        listed.append(b"skip:%d" % acts["skip"])
    if acts.get("skipAfter") is not None:
        listed.append(b"skipAfter:" + value(acts["skipAfter"]))
    return listed


def link_actions(acts):
    listed = [b"t:" + name.encode() for name in acts["transforms"]]
    listed += [name.encode() for name in ("capture", "multiMatch") if acts.get(name)]
    for name, sign, text in acts["setvars"]:
        if sign == "delete":
            listed.append(b"setvar:" + value(b"!tx." + macro(name)))
        else:
            listed.append(b"setvar:" + value(b"tx." + macro(name) + sign.encode() + macro(text)))
    for one in acts["ctls"]:
        listed.append(b"ctl:" + value(one[0].encode() + b"=" + ctl_value(one)))
    return listed


def ctl_value(one):
    if one[0] == "ruleRemoveById":
        return b"%d" % one[1] if one[1] == one[2] else b"%d-%d" % one[1:]
    return one[1] if isinstance(one[1], bytes) else one[1].encode()
