"""Cases of the parts of a directive, by the model in seclang.py."""

import random
import sys

import seclang
from case_words import line, write

HEAD = """The parts of a directive: `macro`, `targets`, `operator`, and the actions of a `first` link, of a
`later` one and of `defaults`. What was read, each text as a quoted word and each reference behind `ref`;
or the first fault and its word.
The answers are those of a model in Python of the written rules: tools/cases/parts.py and seclang.py."""

DRAW = random.Random(13)


def told(call, text, tell, read):
    try:
        return line(call, text, *tell(read(text)))
    except seclang.Fault as fault:
        return line(call, text, fault.kind, fault.word)


def macro_words(parts):
    for part in parts:
        if isinstance(part, bytes):
            yield part
        else:
            yield from ("ref", part[0])
            if len(part) == 2:
                yield from ("key", part[1])


def target_words(targets):
    for marks, var, kind, chosen in targets:
        if marks:
            yield marks.decode()
        yield from (var, kind)
        if kind != "all":
            yield chosen


def operator_words(operator):
    negated, kind, parts, words, file = operator
    if negated:
        yield "!"
    yield kind
    yield from macro_words(parts)
    for word in words:
        yield from ("word", word)
    if file is not None:
        yield from ("file", file)


def texts(name, parts):
    if parts:
        yield name
        yield from macro_words(parts)


def action_words(acts):
    for name in ("id", "phase"):
        if acts.get(name) is not None:
            yield from (name, acts[name])
    disrupt = acts.get("disrupt")
    if disrupt:
        yield disrupt[0]
        if disrupt[1:]:
            yield from macro_words(disrupt[1])
    if acts.get("status") is not None:
        yield from ("status", acts["status"])
    if acts.get("log"):
        yield acts["log"]
    for name in ("msg", "logdata"):
        yield from texts(name, acts.get(name))
    for tag in acts["tags"]:
        yield from ("tag", tag)
    if acts.get("skip"):
        yield from ("skip", acts["skip"])
    if acts.get("skipAfter") is not None:
        yield from ("skipAfter", acts["skipAfter"])
    for name in acts["transforms"]:
        yield from ("t", name)
    for name in ("capture", "multiMatch"):
        if acts.get(name):
            yield name
    for name, sign, value in acts["setvars"]:
        yield from texts("setvar", name)
        yield "delete" if sign == "delete" else sign
        yield from macro_words(value or [])
    for one in acts["ctls"]:
        yield from ("ctl",) + one
    if acts.get("chain"):
        yield "chain"


def macro_case(text):
    return told("macro", text, macro_words, seclang.macro)


def targets_case(text):
    return told("targets", text, target_words, seclang.targets)


def operator_case(text):
    return told("operator", text, operator_words, seclang.operator)


def actions_case(stand, text):
    return told(stand, text, action_words, lambda t: seclang.actions(stand, t))


MACROS = """
a%{tx.B}c|%{TX}%{Remote_Host}|}{%{TX.a.b}%{|%{TX.a%{b}|%%{TX.a|x%{foo}y|%{TX.}|%{REMOTE_ADDR.a}|a%{Time_Hour.}%{b}
%{}|%{.a}|%{ TX}|%{TX }|%{TX .a}|%{TX. a}|%{ARGS.a b}|%{ARGS.%}|%|{|%{|}|%}|%{%{TX.a}}|%{GEO:a}|%{geo.a}|%{ENV}|%{IP.x}
%{PERF_COMBINED}|%{TIMES}|%{DURATION.a}|%{MATCHED_VAR}|%{MATCHED_VAR.a}|%{matched_vars.ARGS:a}|%{XML./*}|%{ARGS_NAMES.}
%{FULL_REQUEST}|a%{tx.0}b%{tx.1}|%{reqbody_error_msg}|%{MULTIPART_LF_LINE}|%{unknown}%{GEO}|%{GEO}%{unknown}|text only
$%{REMOTE_ADDR}$|%{tx.a}}|%%%{tx.a}%%|%{RULE.id}|%{USER.x}|%{SESSION.x}|%{RESOURCE.x}|%{GLOBAL.x}|%{remote_user}
""".replace("\n", "|").strip("|").split("|")

TARGETS = [
    b" multipart_lf_line ", b"!args:a.b ", b"&ARGS: a", b"TX:/a|\\/b/ ", b"TX:'/a|\\/b/ ' ", b"TX:'a.b'",
    b"XML:/*", b"ARGS|!ARGS:/x/ | &TX", b"", b"ARGS|", b"ARGS|FOO:a |TX", b"! ARGS", b"ARGS :a", b"ARGS:",
    b"ARGS:a\\|TX", b"REMOTE_ADDR:a|TX", b"TX:/a|ARGS ", b"TX:/a/b|ARGS", b"TX:'a|b'|ARGS", b"TX:'a '|ARGS",
    b"TX:'a|ARGS", b"!&ENV", b"& Env :/a", b"PERF_ALL|FOO", b"|", b"||", b"|ARGS", b"ARGS||TX", b" ", b"!", b"&",
    b"&!ARGS", b"!!ARGS", b"ARGS:a|ARGS:b", b"ARGS:'a'", b"ARGS:''", b"ARGS:'", b"ARGS:'a' ", b"ARGS:'a'b",
    b"ARGS:a'b'", b"ARGS:/a/", b"ARGS://", b"ARGS:/", b"ARGS:/\\//", b"ARGS:/\\/", b"ARGS:/a\\\\/", b"ARGS:/a/ |TX",
    b"ARGS:/a/\t", b"ARGS:/a/ b", b"ARGS:/a|b|c/|TX:d", b"ARGS: /a/", b"ARGS:' a'", b"ARGS:'a\t'", b"ARGS:'a\\'",
    b"ARGS:'/a/b'", b"ARGS:'/a'", b"ARGS:'/a\\/b/'", b"ARGS:'//'", b"XML:'a|b'", b"XML:/a|b/", b"XML:/a/|ARGS", b"XML",
    b"XML:", b"XML:a b", b"&XML://x", b"TX:a:b", b"TX::", b"TX:a|!TX:b|&TX:c", b"remote_host", b"REMOTE_HOST:a",
    b"REQUEST_HEADERS:User-Agent|!REQUEST_HEADERS:'x y'", b"!REQUEST_COOKIES:/__utm/", b"ARGS:a b", b"ARGS:a\\b",
    b"ARGS:a\\", b"ARGS:a\\ ", b"\tARGS\t|\tTX\t", b"GEO", b"GEO:country", b"!IP:x", b"&SESSION", b"TIME_HOUR", b"time",
    b"Duration", b"FULL_REQUEST_LENGTH", b"RULE:id|ARGS", b"ARGS|GLOBAL:a", b"USER ", b" RESOURCE", b"! GEO", b"GEO :a",
    b"!ARGS", b"!ARGS|!TX", b"&&TX", b"ARGS.a", b"ARGS;TX", b"ARGS,TX", b"MATCHED_VARS_NAMES:/^ARGS/",
    b"ARGS:/a/|!ARGS:'/b/ '|&ARGS:'c'", b"FILES|FILES_NAMES|FILES_COMBINED_SIZE", b"TX:/[|]/|ARGS", b"TX:/\\|/",
]

OPERATORS = [
    b"", b" ! %{a} ", b"@STREQ  %{TX.a} ", b"!\t@noMatch", b"@pm  ab |3c|B|3E|c |Ff| ", b"@ipMatch ,::1, 10.0.0.0/8",
    b"@validateByteRange 0-9,32 ,255", b"@pmf a b.txt", b"@detectsqli", b"@foo! a", b"@", b"@noMatch a b", b"@pm a |4|",
    b"@pm a||", b"@pm |41 42|", b"@validateByteRange 1,9-1", b"@validateByteRange 256", b"@eq %{GEO:a}", b"abc", b" abc ",
    b"!abc", b"!!abc", b"! !abc", b"!", b"!@rx", b"@rx", b"@rx ", b"@rx a b ", b"@rx\ta", b"@RX %{TX.a}", b"a@rx b",
    b"@rxBytes", b"@rxBytes a b ", b"!@RXBYTES\t%{TX.a}", b"@rxByte a", b"@rxBytes_", b"! @streq a", b"@streq", b"@streq  ", b"@streq %{TX.a}%{foo}", b"@streq %{GEO.a}", b"@within a b %{TX.0}",
    b"@contains %{", b"@beginsWith %{REMOTE_ADDR}", b"@endsWith .php", b"@eq 1", b"@ge %{tx.a}", b"@gt -1", b"@le x", b"@lt",
    b"@pm", b"@pm a", b"@pm a b\tc", b"@pm |", b"@pm |a", b"@pm |4g|", b"@pm |4142|", b"@pm |41||42|", b"@pm a|41", b"@pm |41|b|42",
    b"@pm \"", b"@pm |20|", b"@pm |41|x|42|y", b"@pm |414|", b"@pm ||41||", b"@pmFromFile", b"@pmFromFile  a ", b"@pmfromfile /x",
    b"@pmf %{TX.a}", b"@ipMatch", b"@ipMatch a,b c", b"@ipMatch ,, ,", b"@ipMatchF", b"@ipMatchF i", b"@IPMATCHFROMFILE i j",
    b"@validateByteRange", b"@validateByteRange 0", b"@validateByteRange 0-255", b"@validateByteRange 00",
    b"@validateByteRange 1-1", b"@validateByteRange 1-", b"@validateByteRange -1", b"@validateByteRange 1-2-3",
    b"@validateByteRange a", b"@validateByteRange 10 - 20", b"@validateByteRange ,1,,2\t3", b"@validateByteRange 255-256",
    b"@validateUrlEncoding", b"@validateUrlEncoding ", b"@validateUrlEncoding x", b"@validateUtf8Encoding",
    b"@validateUtf8Encoding  x y ", b"@unconditionalMatch", b"@unconditionalMatch !", b"@nomatch", b"!@unconditionalMatch",
    b"@rx_", b"@r\xff x", b"@streq\xc2\xa0a", b"@strmatch a", b"@containsWord a", b"@RSUB s/a/b/", b"@geoLookup", b"@rbl x",
    b"@inspectFile x", b"@fuzzyHash", b"@verifyCC", b"@verifyCPF", b"@verifySSN", b"@restpath", b"@validateSchema a",
    b"@validateNid", b"@detectXSS", b"!@detectXSS", b"@ rx", b"@ge%{tx.a}", b"@pm a|0|", b"@pm |AA||", b"@ipMatch ::1/128,10.0.0.1",
]

ACTIONS = [
    b"", b"id:5,", b"id:5, id:6", b"id:0", b"id:1000000000", b"id:999999999", b"id:1", b"id:01", b"id:+1", b"id:", b"id",
    b"id:1 ", b"id: 1", b"id:'1'", b"id:'1' ", b"id:1x", b"ID:1", b"phase:6", b"phase:0", b"phase:1", b"phase:5", b"phase:request",
    b"phase:RESPONSE", b"phase:logging", b"phase:2,phase:3", b"phase:02", b"phase:", b"phase", b"pass:1", b"pass", b"pass:",
    b" foo :1 , id:1", b"exec:'a,b", b"exec :'a,b', id:1", b"msg:'a'b , log", b"tag:a\\,log", b"SanitiseArg:a", b"sanitise",
    b"sanitiserequestheader", b"t:urlEncode", b"t:foo", b"t:", b"t", b"t:none", b"t:NONE", b"t:trim,t:none,t:length", b"t:normalisePath",
    b"t:NormalisePathWin", b"t:'trim'", b"t: trim ", b"t:sqlHexDecode", b"t:base64DecodeExt", b"t:removeComments", b"t:parityEven7bit",
    b"t:parityOdd7bit", b"t:parityZero7bit", b"t:lowercase,t:lowercase", b"redirect:", b"redirect", b"redirect:''", b"redirect:/a",
    b"redirect:'http://a/%{REQUEST_URI}'", b"redirect:%{x}", b"redirect:%{GEO.a}", b"redirect:a,deny", b"deny,redirect:a",
    b"setvar:Session.a=%{x}", b"setvar:tx.=%{x}", b"setvar:tx.a=%{x}", b"setvar:tx.a", b"setvar:TX.a", b"setvar:tx.a=", b"setvar:tx.a=1",
    b"setvar:tx.a=+1", b"setvar:tx.a=-1", b"setvar:tx.a=+", b"setvar:tx.a==1", b"setvar:tx.a=+-1", b"setvar:tx.a=++1", b"setvar:!tx.a",
    b"setvar:!tx.", b"setvar:!tx", b"setvar:tx", b"setvar:tx.", b"setvar:", b"setvar", b"setvar:!tx.a=1", b"setvar:! tx.a", b"setvar:a=1",
    b"setvar:'tx.a=b,c'", b"setvar:'tx.a=it\\'s'", b"setvar:tx.%{tx.b}=%{tx.c}", b"setvar:tx.%{x}=%{y}", b"setvar:tx.a=%{GEO}",
    b"setvar:ip.a=1", b"setvar:!IP.a", b"setvar:user.=", b"setvar:global.a", b"setvar:resource.", b"setvar:session", b"setvar:'!session.a'",
    b"ctl:ruleRemoveByMsg=a", b"ctl:ruleRemoveById=9-5", b"ctl:ruleRemoveById=5", b"ctl:ruleRemoveById=5-9", b"ctl:ruleRemoveById=5-5",
    b"ctl:ruleRemoveById=", b"ctl:ruleRemoveById", b"ctl:ruleRemoveById=0", b"ctl:ruleRemoveById=5-", b"ctl:ruleRemoveById=-5",
    b"ctl:ruleRemoveById=1000000000", b"ctl:ruleRemoveById=5 - 9", b"ctl:RULEREMOVEBYID=7", b"ctl:ruleRemoveByTag=a", b"ctl:ruleRemoveByTag=",
    b"ctl:'ruleRemoveByTag=a,b'", b"ctl:ruleRemoveByTag=a=b", b"ctl:ruleRemoveTargetByMsg=a;b", b"ctl:ruleremovebymsg", b"ctl:ruleEngine=On",
    b"ctl:ruleengine=off", b"ctl:ruleEngine=detectiononly", b"ctl:ruleEngine=x", b"ctl:ruleEngine", b"ctl:ruleEngine=", b"ctl:ruleEngine= On",
    b"ctl:ruleEngine =On", b"ctl:requestBodyAccess=On", b"ctl:requestBodyAccess=Off", b"ctl:requestBodyAccess=DetectionOnly",
    b"ctl:responseBodyAccess=on", b"ctl:responseBodyAccess=OFF", b"ctl:requestBodyProcessor=URLENCODED", b"ctl:requestBodyProcessor=xml",
    b"ctl:requestBodyProcessor=", b"ctl:auditEngine=", b"ctl:auditEngine=x", b"ctl:auditEngine", b"ctl:auditLogParts=+E", b"ctl:debugLogLevel=9",
    b"ctl:forceRequestBodyVariable=On", b"ctl:foo=1", b"ctl:", b"ctl", b"ctl:=", b"allow", b"allow:phase", b"allow:REQUEST", b"allow:", b"allow:x",
    b"allow:'phase'", b"block", b"deny,block", b"block,deny", b"block:x", b"deny", b"drop", b"deny,drop,pass", b"status:403", b"status:99",
    b"status:100", b"status:999", b"status:1000", b"status:", b"status:403,status:404", b"skip:1", b"skip:0", b"skip:20000", b"skip:20001", b"skip:",
    b"skipAfter:END", b"skipAfter:", b"skipAfter:''", b"skipAfter:'a,b'", b"skipAfter:%{x}", b"skipafter:A,skipAfter:B", b"skip:1,skip:2", b"chain",
    b"chain,chain", b"chain:1", b"capture", b"multimatch", b"capture:", b"log", b"nolog", b"log,nolog", b"nolog,log", b"log:1", b"auditlog,noauditlog",
    b"severity", b"severity:2", b"severity:'CRITICAL'", b"severity:", b"ver", b"ver:'x/1'", b"rev:1", b"maturity:9", b"accuracy:", b"auditlog:x",
    b"msg:", b"msg:''", b"msg:a", b"msg", b"msg:'a,b'", b"msg:'a\\'b'", b"msg:'a\\b'", b"msg:'\\\\''", b"msg:'", b"msg:'a", b"msg:''a", b"msg:' a '",
    b"msg: a b ", b"msg:a'b'", b"msg:%{TX.a}%{MATCHED_VAR}", b"msg:%{x}", b"msg:'%{a,b}'", b"msg:a,msg:b", b"logdata:a,logdata:", b"logdata:%{ENV.a}",
    b"tag:a,tag:b,tag:", b"tag:'a,b'", b"tag:%{x}", b"tag", b",", b",,", b" , ", b"log,", b",log", b"log,,deny", b"log deny", b"log ,deny ", b"'log'",
    b"log'", b":", b":a", b" : ", b"a:b:c", b"msg:a:b", b"proxy:x", b"pause:1", b"initcol:ip=1", b"expirevar:a", b"deprecatevar:a", b"setenv:a=b",
    b"setuid:a", b"setsid:a", b"setrsc:a", b"xmlns:a", b"prepend:'a'", b"append:'a'", b"exec", b"EXEC:x", b"id:1,exec:/x", b"exec:/x,id:0", b"id:0,exec:/x",
    b"id:7,msg:'a", b"id:7,msg:'a'x,foo", b"id:7,tag:\\,foo", b"id\t:\t7\t", b"id:7\t,\tphase:1", b"\tid:7", b"id:1,ID:1", b"tag:a\\", b"msg:'a\\", b"msg:\\",
    b"id:7, PHASE :Logging,deny,block,pass,status:403,t:none,t:lowercase,t:normalisePath,msg:'it\\'s, %{TX.0}',tag:,tag:'a',nolog,"
    b"severity:'2',chain,setvar:'tx.a=+%{TX.b}',setvar:!TX.c,ctl:auditEngine=,ctl:ruleRemoveById=5-9,skipAfter:END,skip:2,capture,multiMatch",
]

MORE = {
    "later": [b"chain,deny", b"chain", b"t:none,t:trim", b"id:1", b"phase:1", b"msg:a", b"tag:a", b"status:403", b"skip:1",
              b"skipAfter:a", b"allow", b"block", b"log", b"nolog,auditlog", b"setvar:tx.a=1", b"ctl:ruleEngine=Off", b"capture,multiMatch",
              b"severity:1", b"redirect:a", b"pass", b"drop", b"logdata:a", b"id:x", b"deny:x", b"exec:x", b"foo", b""],
    "defaults": [b"phase:1,t:none,t:urlEncode", b"phase:1,block", b"phase:1,deny,status:403,log", b"phase:1", b"deny", b"phase:2,pass,nolog,auditlog",
                 b"phase:3,redirect:'a'", b"phase:1,id:1", b"phase:1,t:none", b"phase:1,t:trim", b"phase:1,t:foo", b"phase:1,chain", b"phase:1,msg:a",
                 b"phase:1,tag:a", b"phase:1,allow", b"phase:1,skip:1", b"phase:1,skipAfter:a", b"phase:1,capture", b"phase:1,multiMatch",
                 b"phase:1,setvar:tx.a=1", b"phase:1,ctl:ruleEngine=Off", b"phase:1,severity:1", b"phase:1,phase:2", b"phase:9", b"phase:1,logdata:x",
                 b"phase:1,noauditlog", b"phase:logging,drop", b"phase:1,exec:a", b"phase:1,t:", b"phase:1,t", b"phase:1,ver:1"],
}

MACRO_PIECES = [b"%{", b"}", b"TX", b".a", b"ARGS", b"%", b"x", b"REMOTE_ADDR", b"GEO", b"."]
TARGET_PIECES = [b"ARGS", b"TX", b"REMOTE_ADDR", b"XML", b"|", b"|", b":", b":", b"!", b"&", b"/", b"/a/", b"'", b" ", b"a", b"\\", b"GEO"]
OPERATOR_PIECES = [b"!", b"@pm ", b"@validateByteRange ", b"@eq ", b"a", b" ", b"|", b"41", b"|42|", b",", b"0-9", b"300", b"%{TX.a}", b"@noMatch"]
ACTION_PIECES = [b"id:1", b",", b",", b"msg:", b"'", b"a", b"\\'", b"tag:", b"t:trim", b" ", b"chain", b"deny", b"ctl:", b"setvar:", b"tx.a=", b"b", b":"]


def drawn(pieces, most):
    return b"".join(DRAW.choice(pieces) for _ in range(DRAW.randint(1, most)))


def cases():
    for text in [b""] + [text.encode() for text in MACROS]:
        yield macro_case(text)
    for text in TARGETS:
        yield targets_case(text)
    for text in OPERATORS:
        yield operator_case(text)
    for text in ACTIONS:
        yield actions_case("first", text)
    for stand, listed in MORE.items():
        for text in listed:
            yield actions_case(stand, text)
    for _ in range(60):
        yield macro_case(drawn(MACRO_PIECES, 6))
    for _ in range(120):
        yield targets_case(drawn(TARGET_PIECES, 7))
    for _ in range(80):
        yield operator_case(drawn(OPERATOR_PIECES, 6))
    for _ in range(120):
        yield actions_case("first", drawn(ACTION_PIECES, 8))


if __name__ == "__main__":
    write(sys.argv[1], HEAD, cases())
