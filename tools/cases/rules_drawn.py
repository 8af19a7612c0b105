"""Cases of rules that are drawn, by judgement.py."""

import random
import sys

import judgement
import reading
import rules
from case_words import line, write

HEAD = """Rules that are drawn, as those of rules.txt.
By a model in Python of the written rules: tools/cases/rules_drawn.py and judgement.py."""

DRAW = random.Random(29)

REQUESTS = [b"GET /a/b?x=1&y=abc&x=3", b"POST /p?x=2\ncontent-type: application/x-www-form-urlencoded\nhost: h\n\nx=7&z=abc",
            b"PUT /\nhost: h\ncookie: x=1; y=2\n\nbody", b"GET /"]
RESPONSES = [b"-", b"-", b"200\nx: 1\n\nabc", b"500 1.0\ncontent-type: text/html\n\n"]

TARGETS = ["ARGS", "ARGS:x", "&ARGS", "ARGS|!ARGS:x", "TX", "TX:a", "&TX:a", "REQUEST_METHOD", "REQUEST_URI", "ARGS_NAMES", "REQUEST_HEADERS", "MATCHED_VARS",
           "MATCHED_VAR", "REQUEST_BODY", "REQUEST_COOKIES", "RESPONSE_STATUS", "RESPONSE_BODY", "ARGS:/^[xy]/", "TX:0", "ARGS_POST", "ARGS_COMBINED_SIZE"]
OPS = ["@streq 1", "@streq abc", "@contains b", "@beginsWith a", "@within 123 abc GET", "@eq 1", "@ge 2", "@lt 3", "@gt %{TX.a}", "@streq %{ARGS.x}", "@unconditionalMatch",
       "@unconditionalMatch", "@rx ^(.)(.)?", "@rx (a)|(1)", "@pm b bc 3", "@noMatch", "@endsWith c", "@le 500"]
DISRUPTIONS = ["pass", "pass", "pass", "pass", "pass", "deny", "drop", "redirect:/r/%{TX.a}", "allow", "allow:phase", "allow:request", "block"]
ACTS = ["setvar:tx.a=1", "setvar:tx.a=+1", "setvar:tx.b=-%{MATCHED_VAR}", "setvar:tx.%{MATCHED_VAR}=k", "setvar:!tx.a", "setvar:tx.a=%{TX.0}%{TX.1}", "capture", "multiMatch", "t:lowercase",
        "t:length", "t:uppercase", "t:hexEncode", "t:trim", "ctl:ruleEngine=DetectionOnly", "ctl:ruleEngine=On", "ctl:ruleRemoveById=3-4", "ctl:ruleRemoveByTag=t", "ctl:requestBodyAccess=Off",
        "ctl:responseBodyAccess=On", "ctl:requestBodyProcessor=URLENCODED"]
FIRST = ["status:404", "status:307", "nolog", "tag:t", "skip:1", "skip:2", "skipAfter:E", "msg:'%{MATCHED_VAR_NAME}=%{MATCHED_VAR}'", "msg:'%{TX.a} %{TX.b}'", "logdata:'%{TX.0}%{TX.1}%{TX.2}'"]


def drawn():
    out = []
    if DRAW.random() < 0.3:
        out.append(DRAW.choice(["SecRuleEngine DetectionOnly", "SecResponseBodyAccess On", "SecRequestBodyAccess Off", "SecRequestBodyLimit 3",
                                "SecRequestBodyLimit 3\nSecRequestBodyLimitAction ProcessPartial", "SecDefaultAction phase:1,deny,status:401"]))
    for number in range(1, DRAW.randint(3, 7)):
        acts = ["id:%d" % number, "phase:%d" % DRAW.choice((1, 1, 1, 2, 2, 3, 4, 5)), DRAW.choice(DISRUPTIONS)]
        acts += DRAW.sample(FIRST, DRAW.randint(0, 3)) + DRAW.sample(ACTS, DRAW.randint(0, 3))
        chained = DRAW.random() < 0.25
        out.append('SecRule %s "%s%s" "%s"' % (DRAW.choice(TARGETS), DRAW.choice(("", "", "", "!")), DRAW.choice(OPS), ",".join(acts + ["chain"] * chained)))
        if chained:
            out.append('SecRule %s "%s" "%s"' % (DRAW.choice(TARGETS), DRAW.choice(OPS), DRAW.choice(ACTS)))
        if DRAW.random() < 0.2:
            out.append("SecMarker E")
    return "\n".join(out)


def cases():
    # The cases that were worked out by hand are the model's test.
    for text, request, response, told in rules.CASES:
        if "@ipMatch" in text or "@validate" in text:
            continue
        words = judgement.judge(text.encode(), request.encode(), response.encode())
        if line(*words) != told:
            print("differs:", text, line(*words), told, sep="\n  ")
    count = 0
    while count < 300:
        text = drawn().encode()
        request, response = DRAW.choice(REQUESTS), DRAW.choice(RESPONSES)
        words = judgement.judge(text, request, response)
        if words != ["-", "-"] or DRAW.random() < 0.1:
            count += 1
            yield line(text, request, response, *words)


if __name__ == "__main__":
    write(sys.argv[1], HEAD, cases())
