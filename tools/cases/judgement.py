"""What rules, a request and a response come to, as it is written down in docs/EVALUATION.md: slow, and
apart from the program. Of the operators and transformations it has some that Python has too."""

import re

import reading
import seclang
from transaction import Transaction

TRANSFORMATIONS = {
    "lowercase": bytes.lower, "uppercase": bytes.upper, "length": lambda v: b"%d" % len(v),
    "hexEncode": lambda v: v.hex().encode(), "trim": lambda v: v.strip(b"\t\n\x0b\x0c\r "),
    "removeNulls": lambda v: v.replace(b"\0", b""), "replaceNulls": lambda v: v.replace(b"\0", b" "),
}

ROOM = 2**63


def number(text):
    found = re.match(rb"[\t-\r ]*([+-]?)(\d+)", text)
    value = int(found[1] + found[2]) if found else 0
    return max(-ROOM, min(ROOM - 1, value))


def groups(kind, argument, words, value):
    """The groups of a hit, or None."""
    plain = {
        "streq": value == argument, "contains": argument in value, "beginsWith": value.startswith(argument),
        "endsWith": value.endswith(argument), "within": value in argument,
        "eq": number(value) == number(argument), "ge": number(value) >= number(argument),
        "gt": number(value) > number(argument), "le": number(value) <= number(argument),
        "lt": number(value) < number(argument), "unconditionalMatch": True, "noMatch": False,
    }
    if kind == "rx":
        found = re.search(argument, value, re.S)
        return [found[n] for n in range(found.re.groups + 1)] if found else None
    if kind == "pm":
        low, ends = value.lower(), []
        for word in words:
            at = low.find(word.lower())
            if at >= 0:
                ends.append((at + len(word), at))
        return [value[min(ends)[1] : min(ends)[0]]] if ends else None
    return [] if plain[kind] else None


class Judgement:
    def __init__(self, items, settings, request, response):
        self.items = items
        self.engine = settings[0]
        self.request_body, self.response_body = settings[1] == "On", settings[4] == "On"
        self.limit, self.reject = int(settings[2]), settings[3] == "Reject"
        self.rows = Transaction(request, response)
        self.ids, self.tags, self.next_phase = [], [], 1
        self.verdict, self.lines = None, []

    def run(self):
        """Both verdicts and the lines."""
        first, second = self.phases((1, 2)), None
        if first is None and self.rows.answer is not None:
            self.rows.response, self.rows.with_body = self.rows.answer, self.response_body
            second = self.phases((3, 4))
        self.phase(5)
        return first, second, self.lines

    def phases(self, numbers):
        for one in numbers:
            verdict = self.phase(one)
            if verdict is not None:
                return verdict
        return None

    def phase(self, number_):
        if number_ < self.next_phase:
            return None
        rows = self.rows
        if number_ == 2 and self.request_body:
            rows.opened = (rows.processor(), self.limit)
            if len(rows.body) > self.limit and self.reject and self.engine == "On":
                return "deny", 413, 0
        skip, label = 0, None
        for item in self.items:
            if isinstance(item, bytes):
                label = None if item == label else label
                continue
            if item["phase"] != number_ or label is not None:
                continue
            if skip > 0:
                skip -= 1
                continue
            if self.engine == "Off":
                return None
            if self.is_removed(item) or not self.matches(item):
                continue
            flow = self.flow(item, number_)
            if isinstance(flow, tuple):
                return flow
            if flow == "end":
                return None
            skip, label = item["acts"].get("skip") or 0, item["acts"].get("skipAfter")
            if label is not None:
                skip = 0
        return None

    def is_removed(self, item):
        return any(a <= item["id"] <= b for a, b in self.ids) or any(t in item["acts"]["tags"] for t in self.tags)

    def matches(self, item):
        for targets, op, acts in item["links"]:
            if targets is None:
                self.effects(acts)
            elif not self.link(targets, op, acts):
                return False
        if item["log"]:
            expand = self.rows.expand
            self.lines.append((item["id"], expand(item["acts"].get("msg", [])), expand(item["acts"].get("logdata", []))))
        return True

    def link(self, targets, op, acts):
        negated, kind, parts, words, _ = op
        argument = parts[0] if kind == "rx" and parts else self.rows.expand(parts)
        found = []
        for name, value in self.rows.select(targets, []):
            tested, last = [value] if acts.get("multiMatch") else [], value
            for transform in acts["transforms"]:
                after = TRANSFORMATIONS[transform](last)
                if acts.get("multiMatch") and after != last:
                    tested.append(after)
                last = after
            hits = [(one, groups(kind, argument, words, one)) for one in tested + [last]]
            hits = [(one, hit) for one, hit in hits if hit is not None]
            if negated and not hits:
                found.append((name, last, []))
            elif not negated and hits:
                found.append((name,) + hits[0])
        if found:
            self.rows.matched = []
        for name, value, hit in found:
            self.rows.matched.append((name, value))
            if acts.get("capture") and hit:
                self.rows.captured = [(b"%d" % n, g) for n, g in enumerate(hit[:10]) if g is not None]
            self.effects(acts)
        return bool(found)

    def effects(self, acts):
        for name, sign, text in acts["setvars"]:
            self.setvar(self.rows.expand(name).lower(), sign, text)
        for one in acts["ctls"]:
            self.ctl(one)

    def setvar(self, name, sign, text):
        if name == b"":
            return
        if sign == "delete":
            self.rows.tx = [row for row in self.rows.tx if row[0] != name]
            return
        value = self.rows.expand(text)
        if sign != "=":
            old = next((v for n, v in self.rows.tx if n == name), b"")
            total = number(old) + (number(value) if sign == "=+" else -number(value))
            value = b"%d" % max(-ROOM, min(ROOM - 1, total))
        self.rows.put(name, value)

    def ctl(self, one):
        if one[0] == "ruleEngine":
            self.engine = one[1]
        elif one[0] == "requestBodyAccess":
            self.request_body = one[1] == "On"
        elif one[0] == "responseBodyAccess":
            self.response_body = one[1] == "On"
        elif one[0] == "requestBodyProcessor":
            self.rows.chosen = one[1].encode()
        elif one[0] == "ruleRemoveById":
            self.ids.append(one[1:])
        else:
            self.tags.append(one[1])

    def flow(self, item, number_):
        """A verdict, `end`, or None where the phase goes on."""
        what, status = item["disrupt"], item["status"]
        if self.engine != "On" or number_ == 5 or what[0] == "pass":
            return None
        if what[0] in ("deny", "drop"):
            return what[0], status or 403, item["id"]
        if what[0] == "redirect":
            status = status if status in (301, 302, 303, 307, 308) else 302
            return "redirect", self.rows.expand(what[1]), status, item["id"]
        if what[0] == "allow":
            self.next_phase = 5
        elif what[0] == "allow:request" and number_ < 3:
            self.next_phase = 3
        return "end"


def judge(rules, request, response):
    """The words of a case."""
    reader = reading.Reader({b"rules": rules})
    reader.file(b"rules", 0, (b"rules", 0), b"")
    items = [item for item in reader.items if not reader.is_removed(item)]
    first, second, lines = Judgement(items, reader.settings, request, response).run()
    out = []
    for verdict in (first, second):
        out += ["-"] if verdict is None else list(verdict)
    for one in lines:
        out += list(one)
    return out
