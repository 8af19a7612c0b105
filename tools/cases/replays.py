#!/usr/bin/env python3
"""Writes runs of `replay` over several connections to the end of crates/cases/data/commands.txt, and the script of
docs/REPLAY.md with its results to examples/.

The results are said here, act by act, from the rules of each run and the texts of SPOP; the program has no part in it.
"""

import os

from case_text import DATA, line
from protocol import ack_bytes, agent_disconnect, agent_hello, control_frame, frame_bytes, message_bytes

EXAMPLES = os.path.join(DATA, "..", "..", "..", "examples")
MARK = b"# replays of several connections\n"

LEAVES = control_frame(2, [(b"status-code", ("uint32", 0)), (b"message", ("text", b"normal"))])
DENY_POST = b'SecRule REQUEST_METHOD "@streq POST" "id:100,phase:1,deny"\n'


def offer(size):
    return control_frame(1, [(b"supported-versions", ("text", b"2.0")), (b"max-frame-size", ("uint32", size)),
                             (b"capabilities", ("text", b"pipelining"))])


def message(kind, app, name, others):
    pairs = [(b"app", ("text", app))] if app else []
    return message_bytes(kind, pairs + [(b"id", ("text", name))] + others)


def request(stream, name, app=b"", path=b"", query=b"", method=b"GET", flags=1):
    texts = [(b"method", method), (b"path", path), (b"query", query)]
    told = message(b"coraza-req", app, name, [(key, ("text", text)) for key, text in texts if text])
    return frame_bytes(3, flags, stream, 1, told)


def response(stream, name, status, app=b""):
    return frame_bytes(3, 1, stream, 1, message(b"coraza-res", app, name, [(b"status", ("int32", status))]))


def ack(stream, name, *more):
    return ack_bytes(stream, 1, [(b"id", ("text", name)), *more])


def error(number):
    return b"error", ("uint32", number)


def denied(status, rule):
    return (b"action", ("text", b"deny")), (b"status", ("uint32", status)), (b"ruleid", ("uint32", rule))


class Run:
    """A script as it grows, with what its steps show."""

    def __init__(self, what, rules=b"", keys=b"", responses=True, name=b""):
        self.what, self.script, self.results = what, [], []
        self.calls, self.later = "-", None
        conf = keys + b'[[app]]\nname = "' + name + b'"\nrules = ["rules"]\n'
        conf += b"responses = true\n" if responses else b""
        self.files = [b"agent.toml", conf, b"rules", rules]

    def step(self, text, *shown):
        self.script.append(text)
        self.results.extend(shown)

    def feed(self, conn, frame):
        self.step("feed %d %s" % (conn, frame.hex()))

    def acts(self, conn, *shown):
        """One act for each need: a frame that is written, a line, or None where nothing is shown."""
        for what in shown:
            if isinstance(what, bytes):
                what = "out %d %s" % (conn, what.hex())
            self.step("act %d" % conn, *([] if what is None else [what]))

    def greet(self, *conns, size=16380):
        for conn in conns:
            self.step("open %d" % conn)
            self.feed(conn, offer(size))
            self.acts(conn, agent_hello(size, True))

    def park(self, conn, stream, name, log=None, **told):
        """A request that passes: its application, its row, its judgement, the parking, the ACK."""
        self.feed(conn, request(stream, name, **told))
        self.acts(conn, None, None, log, None, ack(stream, name))

    def claim(self, conn, stream, name, status=200, app=b"", log=None, more=()):
        """Its response: the row is claimed, judged to the end, the ACK."""
        self.feed(conn, response(stream, name, status, app))
        self.acts(conn, None, log, ack(stream, name, *more))

    def refuse(self, conn, stream, name, number, steps, **told):
        """A request that is refused with this error after so many steps."""
        self.feed(conn, request(stream, name, **told))
        self.acts(conn, *[None] * steps, ack(stream, name, error(number)))

    def come_late(self, conn, stream, name, app=b""):
        self.feed(conn, response(stream, name, 200, app))
        self.acts(conn, None, ack(stream, name, error(4)))

    def exchange(self, readings, **later):
        """These files, by the part of a name before its dot, stand in the place of the first after so many readings."""
        names = self.files[::2]
        self.later = [part for name in names
                      for part in (name, later.get(name.split(b".")[0].decode(), self.files[self.files.index(name) + 1]))]
        self.calls = "x%d" % readings

    def case(self, words=b"replay\nagent.toml"):
        script, results = ("".join(one + "\n" for one in lines).encode() for lines in (self.script, self.results))
        files = b"\0".join(self.files) + (b"\1" + b"\0".join(self.later) if self.later else b"")
        told = line(words, files, script, self.calls, 0, results)
        return b"# " + self.what.encode() + b"\n" + told.encode() + b"\n"

    def cases(self):
        """The run, and the same where the slow functions judge."""
        plain = Run("the same, judged by the slow functions")
        plain.files, plain.later, plain.calls = self.files, self.later, self.calls
        plain.script, plain.results = self.script, self.results
        return self.case() + plain.case(b"replay\n--plain\nagent.toml")


def log(conn, rule, text, data=b""):
    return "log %s %d %s %s" % (conn, rule, text.hex() or "-", data.hex() or "-")


def fragmented():
    run = Run("a frame that goes on in another closes its connection alone", DENY_POST, responses=False)
    run.greet(0, 1)
    run.feed(0, request(7, b"a1", flags=0))
    run.acts(0, agent_disconnect(10), "closed 0 status 10")
    run.feed(1, request(7, b"a1"))
    run.acts(1, None, None, None, ack(7, b"a1"))
    return run


def half_a_chain():
    rules = (b'SecRule REQUEST_METHOD "@streq GET" "id:1,phase:1,deny,nolog,setvar:tx.a=1,chain"\n'
             b'SecRule REQUEST_URI "@streq /no" "chain"\nSecRule REQUEST_PROTOCOL "@unconditionalMatch"\n'
             b'SecRule TX:a "@eq 1" "id:2,phase:1,pass,log,msg:\'a stays\'"\n')
    run = Run("a chain that ends half way denies nothing, and what it set stays", rules, responses=False)
    run.greet(0)
    run.feed(0, request(1, b"a1", path=b"/"))
    run.acts(0, None, log(0, 2, b"a stays"), None, ack(1, b"a1"))
    return run


def skipped():
    rules = (b'SecRule REQUEST_METHOD "@streq GET" "id:1,phase:1,pass,nolog,skipAfter:END"\n'
             b'SecAction "id:2,phase:2,nolog,pass,setvar:tx.two=1"\n'
             b'SecAction "id:3,phase:1,nolog,pass,setvar:tx.three=1"\nSecMarker END\n'
             b'SecRule &TX:two "@eq 1" "id:4,phase:2,pass,log,msg:\'two\'"\n'
             b'SecRule &TX:three "@eq 0" "id:5,phase:2,pass,log,msg:\'no three\'"\n')
    run = Run("a skip is of its own phase", rules, responses=False)
    run.greet(0)
    run.feed(0, request(1, b"a1"))
    run.acts(0, None)
    run.step("act 0", log(0, 4, b"two"), log(0, 5, b"no three"))
    run.acts(0, None, ack(1, b"a1"))
    return run


def expired(is_late):
    run = Run("a response that comes %s" % ("after its request expired" if is_late else "late, before anything expired"))
    run.greet(0)
    run.park(0, 7, b"a1")
    run.step("tick 60000")
    if is_late:
        run.step("expire 0", "expired 0 1")
        run.come_late(0, 9, b"a1")
    else:
        run.claim(0, 9, b"a1")
    return run


def raced(first, second):
    run = Run("of two responses the one whose act comes first, that of %d, has the request" % first)
    run.greet(0, 1, 2)
    run.park(0, 7, b"a1")
    run.feed(1, response(9, b"a1", 200))
    run.feed(2, response(9, b"a1", 200))
    run.acts(first, None)
    run.acts(second, None)
    run.acts(second, ack(9, b"a1", error(4)))
    run.acts(first, None, ack(9, b"a1"))
    run.step("stats", "stats running 0 parked 0")
    return run


def full():
    run = Run("a full table, an identifier in use, and room again", keys=b"capacity = 2\n")
    run.greet(0)
    run.park(0, 1, b"a1")
    run.park(0, 2, b"a2")
    run.refuse(0, 3, b"a3", 3, 2)
    run.refuse(0, 4, b"a2", 2, 2)
    run.step("tick 60000")
    run.step("expire 0", "expired 0 1")
    run.park(0, 5, b"a3")
    run.step("stats", "stats running 0 parked 2")
    return run


def unknown():
    run = Run("an application that there is not, and a request without its method", name=b"site")
    run.greet(0)
    run.refuse(0, 7, b"a1", 1, 1, app=b"x")
    run.feed(0, request(9, b"a1", app=b"site", method=b""))
    run.acts(0, ack(9, b"a1", (b"data", ("text", b"method")), error(5)))
    return run


def too_long():
    rules = (b'SecAction "id:3,phase:1,nolog,'
             b'redirect:https://example.org/blocked?from=%{REQUEST_URI}&again=%{REQUEST_URI}"\n')
    run = Run("an ACK that is longer than the frames that were agreed", rules)
    run.greet(0, size=256)
    run.feed(0, request(1, b"a1", path=b"/" + b"p" * 119))
    run.acts(0, None, None, None, None, agent_disconnect(3), "closed 0 status 3")
    run.step("stats", "stats running 0 parked 0")
    return run


def detected():
    rules = b'SecRuleEngine DetectionOnly\nSecRule REQUEST_METHOD "@streq GET" "id:9,phase:1,drop,log,msg:\'seen\'"\n'
    run = Run("where rules only detect, a request that one would drop waits for its response", rules)
    run.greet(0)
    run.park(0, 1, b"a1", log=log(0, 9, b"seen"))
    run.step("stats", "stats running 0 parked 1")
    return run


def early():
    run = Run("a response while its request is being judged, and another once it is parked")
    run.greet(0, 1)
    run.feed(0, request(1, b"a1"))
    run.acts(0, None, None)
    run.come_late(1, 7, b"a1")
    run.step("stats", "stats running 1 parked 0")
    run.acts(0, None, None, ack(1, b"a1"))
    run.claim(1, 8, b"a1")
    return run


FAILED = b'SecRule RESPONSE_STATUS "@streq 500" "id:7,phase:3,deny"\n'


def reloaded():
    run = Run("a reload between a request and its response: each is judged by the rules of its request's start")
    run.exchange(2, rules=FAILED)
    run.greet(0)
    run.park(0, 1, b"a1")
    run.step("reload", "published 2")
    run.claim(0, 2, b"a1", 500)
    run.park(0, 3, b"a3")
    run.claim(0, 4, b"a3", 500, log=log(0, 7, b""), more=denied(403, 7))
    return run


def kept():
    run = Run("a reload that is refused in the rules of its second application keeps the first one's rules too",
              DENY_POST, responses=False)
    run.files[1] = (b'default = "a"\n[[app]]\nname = "a"\nrules = ["rules"]\n'
                    b'[[app]]\nname = "b"\nrules = ["b.conf"]\n')
    run.files += [b"b.conf", b""]
    refused = b"SecRuleEngine On\nSecRequestBodyAccess On\n\n" + b'SecRule ARGS "@detectSQLi" "id:1,phase:2,deny"\n'
    run.exchange(3, rules=b"", b=refused)
    run.greet(0)
    run.step("reload", "kept b.conf:4: RefusedByName @detectSQLi")
    run.feed(0, request(1, b"a1", method=b"POST"))
    run.acts(0, None, log(0, 100, b""), ack(1, b"a1", *denied(403, 100)))
    run.step("reload", "kept b.conf:4: RefusedByName @detectSQLi")
    return run


def not_read():
    run = Run("a reload whose rules can't be read, one whose configuration can't, and one that succeeds", DENY_POST,
              responses=False)
    run.calls = "f3,f4"
    run.greet(0)
    run.step("reload", "kept rules: ReadFault")
    run.step("reload", "kept agent.toml: ReadFault")
    run.step("reload", "published 2")
    run.feed(0, request(1, b"a1", method=b"POST"))
    run.acts(0, None, log(0, 100, b""), ack(1, b"a1", *denied(403, 100)))
    return run


def gone():
    run = Run("a reload whose configuration is gone")
    run.later, run.calls = [b"other", b""], "x2"
    run.step("reload", "kept agent.toml: NoFile")
    run.step("stats", "stats running 0 parked 0")
    return run


def expired_later():
    run = Run("a request that is parked through a reload expires by its own life and the rules of its start",
              b'SecAction "id:5,phase:5,pass,log,msg:\'first\'"\n', keys=b"")
    run.files[1] += b"life = 10\n"
    run.exchange(2, rules=b'SecAction "id:6,phase:5,pass,log,msg:\'second\'"\n')
    run.later[1] = run.files[1].replace(b"life = 10", b"life = 5")
    run.greet(0)
    run.park(0, 1, b"a1")
    run.step("reload", "published 2")
    run.park(0, 2, b"a2")
    run.step("tick 5")
    run.step("expire 0", "expired 0 2", log("-", 6, b"second"))
    run.step("expire 0", "notdue 0")
    run.step("tick 5")
    run.step("expire 0", "expired 0 1", log("-", 5, b"first"))
    return run


def example():
    run = Run("the example of docs/REPLAY.md")
    files = []
    for name in ("replay.toml", "replay.rules"):
        with open(os.path.join(EXAMPLES, name), "rb") as file:
            files += [name.encode(), file.read()]
    run.files = files
    site = {"app": b"site", "path": b"/search"}
    # a request that passes waits for its response; one that is denied gives its row back
    run.greet(0)
    run.park(0, 1, b"t1", query=b"q=shoes", **site)
    run.feed(0, request(2, b"t2", query=b"q=<script>", **site))
    run.acts(0, None, None, log(0, 10, b"script"), None, ack(2, b"t2", *denied(403, 10)))
    run.step("stats", "stats running 0 parked 1")
    # the response comes over another connection: the row is claimed, and judged to the end
    run.greet(1)
    run.claim(1, 1, b"t1", 500, b"site", log(1, 20, b"error page"), denied(502, 20))
    # a request whose response does not come in time, and the response that comes too late
    run.park(1, 2, b"t3", query=b"q=hats", **site)
    run.step("tick 999")
    run.step("expire 0", "notdue 0")
    run.step("tick 1")
    run.step("expire 0", "expired 0 3")
    run.come_late(1, 3, b"t3", b"site")
    # one connection ends between two frames, the other by HAProxy's DISCONNECT
    run.step("end 0")
    run.acts(0, "closed 0 done")
    run.feed(1, LEAVES)
    run.acts(1, agent_disconnect(0), "closed 1 done")
    run.step("stats", "stats running 0 parked 0")
    for name, lines in (("replay.script", run.script), ("replay.results", run.results)):
        with open(os.path.join(EXAMPLES, name), "w") as file:
            file.write("".join(one + "\n" for one in lines))
    return run


def main():
    runs = [fragmented(), half_a_chain(), skipped(), expired(True), expired(False), raced(1, 2), raced(2, 1), full(),
            unknown(), too_long(), detected(), early()]
    reloads = [reloaded(), kept(), not_read(), gone(), expired_later()]
    cases = b"".join(run.case() for run in runs) + b"".join(run.cases() for run in [detected(), skipped(), *reloads])
    cases += example().case(b"replay\nreplay.toml")
    path = os.path.join(DATA, "commands.txt")
    with open(path, "rb") as file:
        before = file.read().partition(MARK)[0].partition(b"# the example of docs/REPLAY.md\n")[0]
    with open(path, "wb") as file:
        file.write(before + MARK + cases)


if __name__ == "__main__":
    main()
