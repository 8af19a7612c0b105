"""Cases of rule files, by reading.py."""

import os
import random
import sys

import reading
from case_words import line, write

HEAD = """Rule files: the names that are handed in, between commas, and what stands in the files; a line `@@ NAME`
begins the file NAME, and what stands before the first is the first of the names. What is read, a line of
its canonical text a word, without the settings where they are as at the start; or the kind of the fault,
its file, its line and its word.
By a model in Python of the written rules: tools/cases/directives.py and reading.py."""

DRAW = random.Random(19)


def files_of(name, text):
    files, has_lines, content = {}, False, b""
    for one in text.split(b"\n"):
        if one.startswith(b"@@ "):
            if has_lines:
                files.setdefault(name, content)
            name, content, has_lines = one[3:], b"", False
        else:
            content += (b"\n" if has_lines else b"") + one
            has_lines = True
    if has_lines:
        files.setdefault(name, content)
    return files


def case(text, names=b"d/a", given=None):
    text = text if isinstance(text, bytes) else text.encode()
    listed = names.split(b",")
    try:
        lines = reading.listing(listed, files_of(listed[0], text))
    except reading.Placed as fault:
        kind, file, number, word = fault.args
        return line(names, given or text, kind, file, number, word)
    settings = ['%s "%s"' % pair for pair in zip(reading.SETTINGS, reading.FIRST_SETTINGS)]
    if lines[:5] == [one.encode() for one in settings]:
        lines = lines[5:]
    return line(names, text, *lines) if given is None else line(names, given, *lines)


TEXTS = [
    # each kind of fault
    "SecMarker A\n\nSecFoo On", "secremoterules x", "SecMarker", "SecAction phase:1", "SecAction id:5\n\nSecAction id:5",
    "SecMarker A\nSecAction id:5,chain\n", 'SecMarker "a', b"SecFoo\nSecMarker \xff", "Include b", "SecMarker A\nInclude a",
    # the first fault in reading order
    'SecFoo "a', "SecAction id:5,chain\nSecFoo", "SecAction id:5,chain\nSecMarker", "SecRule GEO @rbl id:0", "SecRule ARGS @rbl id:0",
    'SecRule ARGS "@ipMatch ::1,1.2.3" id:0', 'SecRule ARGS "@pmf p*" id:0', "SecDefaultAction deny,foo", "SecDefaultAction deny",
    'SecMarker "a\nSecFoo', 'SecRule ARGS "a"b', "SecRule ARGS a id:1 x", "SecRule ARGS", "SecRule", "SecAction", "SecAction a b", "SecMarker a b",
    "SecAction id:5,chain\nSecMarker a b", "SecAction id:5,chain\nSecRule ARGS", "SecAction id:5,chain\nSecRuleScript", "SecAction id:5,chain\nSecAuditLog x",
    "SecAction id:5,chain\nInclude b", "SecAction id:5,chain\nSecRuleEngine On", 'SecAction id:5,chain\nSecMarker "', "SecRule ARGS a msg:%{x},id:0",
    "SecRule ARGS a id:0,msg:%{x}", "SecRule ARGS|GEO @foo id:0", "SecRule FOO|GEO @rbl id:0", "SecRule ARGS:/a @rbl id:0", "SecRule ARGS a",
    "SecRule ARGS a log\nSecFoo", "SecAction id:5\nSecAction id:5,foo", "SecAction id:5\nSecAction foo", "SecAction id:5\nSecAction id:5,chain\nSecFoo",
    "SecAction id:5\nSecAction nolog", "SecAction id:5\nSecAction id:6\nSecAction id:7\nSecAction id:6", "SecAction id:5,chain\nSecAction id:6",
    "SecAction id:5,chain\nSecRule ARGS a deny", "SecAction id:5,chain\nSecAction exec:a", "SecAction \"id:5,msg:'a\"", "SecAction id:5,chain",
    "SecAction id:1,chain\nSecAction chain\n", "SecAction id:1,chain\n\n# end\nSecAction chain\n\n",
    # words and lines
    "", '# a\\\nSecMarker "a\\"b\\c"', '"secmarker" A\r\nSecMarker \\\r\n B\r', b"SecMarker \xc3\xa4\xe2\x82\xac\xf0\x9f\x98\x80", 'SecMarker ""',
    "SecAction \"id:1,msg:,logdata:'',tag:,msg:'%{'\"", "SecRule ARGS \"a|b|%{\" \"id:7,skipAfter:'a,b'\"",
    "SecRule ARGS:/a|\\/b/|!ARGS:c @unconditionalMatch id:8,phase:1", b"SecAuditLog \"x y\" z \xc2\xa0\nSecMarker A", "SecMarker a\\", "SecMarker \\",
    "SecMarker a\\b", "SecMarker a\\\nb", 'SecMarker "a\\\nb"', "   SecMarker   A   ", "\tSecMarker\tA\t", "SECMARKER a\nsecmarker B", "SecMarker 'a b'", "SecMarker #a",
    "#SecMarker A", "# x\n# y", "\\\n\\\nSecMarker A", "SecMarker A\\", "@@ d/a\nSecMarker A", b"\xef\xbb\xbfSecMarker A", b"SecMarker A\n\xc3", b"SecMarker A\n#\xc3(\nSecMarker",
    # links, defaults and removals
    "SecAction id:1,chain,deny\nSecRule ARGS a chain\nSecRule ARGS a",
    "SecDefaultAction phase:2,deny,status:501,nolog\nSecAction id:1\nSecAction id:2,phase:1\nSecDefaultAction phase:2\nSecAction id:3",
    "SecDefaultAction phase:2,redirect:x,status:302\nSecAction id:1,block\nSecAction id:2,drop,status:400,nolog",
    "SecRuleRemoveById 2 4-5\nSecAction id:1\nSecAction id:2\nSecAction id:4\nSecAction id:6\nSecRuleRemoveByTag t\nSecAction id:7,tag:t\nSecAction id:8,tag:T",
    "SecRuleRemoveById 1\nSecAction id:1\nSecAction id:1", "SecRuleRemoveById 1 5-4", "SecRuleRemoveById", "SecRuleRemoveById 0", "SecRuleRemoveById 1-",
    "SecRuleRemoveById 1 2 3 x 0", "SecRuleRemoveById 1-1000000000", "SecRuleRemoveById \"1 2\"", "SecRuleRemoveById 1-999999999\nSecAction id:7\nSecMarker M",
    "SecRuleRemoveByTag a b", "SecRuleRemoveByTag \"\"\nSecAction id:1,tag:\nSecAction id:2", "SecRuleRemoveByTag a\nSecAction id:1,tag:ab,tag:a\nSecAction id:2,tag:ab",
    "SecRuleRemoveById 1\nSecAction id:1,chain\nSecRule ARGS a chain\nSecAction t:trim\nSecAction id:2", "SecDefaultAction phase:1", "SecDefaultAction phase:1,log phase:2",
    "SecDefaultAction phase:3,drop\nSecAction id:1,phase:response\nSecAction id:2,phase:3\nSecAction id:3,phase:3,pass\nSecAction id:4,phase:3,block",
    "SecDefaultAction phase:2,deny,status:500\nSecAction id:1,block\nSecAction id:2,status:400\nSecAction id:3,block,status:401\nSecAction id:4,allow",
    "SecDefaultAction phase:2,nolog\nSecAction id:1,log\nSecAction id:2\nSecAction id:3,chain,nolog\nSecAction log", "SecDefaultAction phase:2,deny,pass,drop,log,nolog\nSecAction id:1",
    "SecDefaultAction phase:2,block", "SecDefaultAction phase:2,t:none,auditlog\nSecAction id:1", "SecDefaultAction phase:2,t:trim", "SecDefaultAction",
    # settings
    "SecRuleEngine On", "SecRuleEngine off", "SecRuleEngine DETECTIONONLY", "SecRuleEngine x", "SecRuleEngine", "SecRuleEngine On Off", "secruleengine On\nSecRuleEngine Off",
    "SecRequestBodyAccess off", "SecRequestBodyAccess DetectionOnly", "SecRequestBodyLimit 0", "SecRequestBodyLimit 1", "SecRequestBodyLimit 1073741824", "SecRequestBodyLimit 1073741825",
    "SecRequestBodyLimit 01", "SecRequestBodyLimit 131072", "SecRequestBodyLimitAction processpartial", "SecRequestBodyLimitAction Accept", "SecResponseBodyAccess ON",
    "SecResponseBodyAccess yes", "SecRequestBodyLimit 99999999999999999999", "SecAuditEngine", "secauditengine x", "SecComponentSignature \"x\" y",
    # operators and what they print
    "# a rule in few words\nSecRule ARGS abc \"id:1, phase:request, t:none\"", 'secmarker "END \\"A\\"\\x"',
    "SecRule ARGS \"@pm a|20|B|22||7C||00||fF|  ~|5c|\" \"id:1,phase:2\"", "SecRule REMOTE_ADDR \"@ipMatch 10.0.0.0/8, ::1\" \"id:1,phase:1\"",
    "SecRule ARGS \"!@validateByteRange 9,10,32-126\" \"id:1,phase:2\"", "SecRule ARGS @noMatch \"id:1\"", "SecRule ARGS @pm id:1", "SecRule ARGS @ipMatch id:1", "SecRule ARGS @rx id:1",
    "SecRule ARGS \"\" id:1", "SecRule ARGS @validateByteRange id:1", "SecRule ARGS \"@pm a b\\\"c d\\e\" id:1", "SecRule ARGS '@pm id:1", "SecRule ARGS \"@ipMatch 1.2.3.4/33\" id:1",
    "SecRule ARGS \"@ipMatch fe80::1%1\" id:1", "SecRule ARGS \"@ipMatch 1.2.3.4/24 ,, ::/0\" id:1", "SecRule ARGS \"@ipMatch x,y\" id:1",
    "SecRule \"args|!Args:'a b'|&REQUEST_HEADERS:/^a\\/\\\"b/\" \"!@rx a\\\"b'c\" \"id:942100,phase:2,t:urlDecodeUni,t:lowercase,capture,multiMatch,skipAfter:END,skip:3,redirect:'http://a\\'b',"
    "status:302,nolog,msg:'it\\'s %{matched_vars.x}',logdata:'\\\"q\\\"',tag:'a,b',chain\"\n SecAction chain\n SecRule REMOTE_ADDR \"@eq 1%{tx.a}\"",
    "SecAction \"id:1,phase:2,setvar:tx.a=1,setvar:tx.a=+2,setvar:'tx.a=-it\\'s',setvar:!tx.a,ctl:ruleEngine=Off,ctl:requestBodyAccess=Off,ctl:responseBodyAccess=On,"
    "ctl:requestBodyProcessor=XML,ctl:ruleRemoveById=7,ctl:ruleRemoveById=7-10,ctl:'ruleRemoveByTag=it\\'s',chain\"\nSecAction \"severity:0\"",
    "SecAction id:1,chain\nSecAction \"\"", "SecAction id:1,chain\nSecAction ver:1", "SecAction id:1,chain\nSecRule ARGS a \"\"", "SecAction \"\"",
    # how patterns are read
    "SecRule ARGS a id:1\nSecPatternMode Bytes\nSecRule ARGS a id:2\nSecRule ARGS \"!@rx b\" id:3\nSecPatternMode unicode\nSecRule ARGS \"!@rx b\" id:4\nSecRule ARGS b id:5",
    "SecPatternMode BYTES\nSecRule ARGS:/a/ \"\" id:1\nSecRule TX:/b/ \"@pm rx\" id:2\nSecRule ARGS \"@streq a\" id:3,chain\nSecRule ARGS @rx", "SecPatternMode", "SecPatternMode Bytes Unicode",
    "SecPatternMode x", "SecPatternMode \"\"", "secpatternmode Unicode\nSecRule ARGS \"@RXBYTES ^a\\\"b \" id:1\nSecRule ARGS @rxBytes id:2\nSecRule ARGS \"!@rxBytes (\" id:3",
    "SecAction id:5,chain\nSecPatternMode Bytes", "SecRule ARGS a id:1,chain\nSecRule ARGS \"@rxBytes b\"\nSecPatternMode Bytes\nSecRule ARGS \"@rx c\" id:2,chain\nSecRule ARGS d",
    "SecPatternMode Bytes\nSecRule ARGS \"@rxBytes a\" id:1\nSecMarker M\nSecRule ARGS \"@foo\" id:2",
    "@@ d/a\nSecPatternMode Bytes\nInclude b\nSecRule ARGS c id:3\n@@ d/b\nSecRule ARGS a id:1\nSecPatternMode Unicode\nSecRule ARGS b id:2",
    "@@ d/a\nSecRule ARGS a id:1\nInclude b\nSecRule ARGS c id:3\n@@ d/b\nSecPatternMode Bytes\nSecRule ARGS b id:2",
    # files
    "@@ d/a\nInclude e/b\nInclude /c\nSecMarker A\n@@ d/e/b\nSecRule ARGS \"@pmFromFile ../p\" id:1\n@@ d/e/../p\n# phrases\r\n a b \r\n\nc\n@@ /c\n"
    "SecDefaultAction phase:2,deny\nSecRule ARGS \"@ipMatchF i\" id:2\n@@ /i\n10.0.0.0/8\n::1",
    "@@ d/a\nInclude b\n@@ d/b\nSecMarker A\nSecRule ARGS \"@ipMatchFromFile i\" id:2\n@@ d/i\n10.0.0.0/8\n10.0.0.0/33",
    "@@ d/a\nInclude b\nSecAction\n@@ d/b\nSecAction id:2,chain", "@@ d/a\nSecRule ARGS \"@pmf p\" id:1\n@@ d/p\n a|41| b\t\r\n#c\nd",
    b"@@ d/a\nSecRule ARGS \"@pmf p\" id:1\n@@ d/p\n\xff\n|\n\"\\\n  # x\n#\n\xc3\xa4 b", "@@ d/a\nSecRule ARGS \"@pmf p\" id:1\n@@ d/p\n", "@@ d/a\nSecRule ARGS @pmf id:1", "@@ d/a\nSecRule ARGS \"@pmf x y\" id:1\n@@ d/x y\na",
    "@@ d/a\nInclude b*", "@@ d/a\nInclude b?", "@@ d/a\nInclude [b", "@@ d/a\nInclude b]\n@@ d/b]\nSecMarker B", "@@ d/a\nInclude", "@@ d/a\nInclude b c", "@@ d/a\nInclude \"b c\"\n@@ d/b c\nSecMarker X", "@@ d/a\nInclude \"\"",
    "@@ d/a\nSecRule ARGS \"@pmf [\" id:1", "@@ d/a\nSecRule ARGS \"@ipMatchF i?\" id:1", "@@ d/a\nSecRule ARGS \"@pmf none\" id:1", "@@ d/a\nSecMarker A\nInclude /none",
    b"@@ d/a\nSecMarker A\nInclude b\n@@ d/b\nSecMarker B\nSecMarker \xff", "@@ d/a\nInclude b\n@@ d/b\nSecMarker \"a", "@@ d/a\nInclude b\n@@ d/b\nSecFoo", "@@ d/a\nInclude b\nSecAction id:1\n@@ d/b\nSecAction id:1",
    "@@ d/a\nInclude b\nInclude b\n@@ d/b\nSecAction id:1", "@@ d/a\nInclude b\nInclude b\n@@ d/b\nSecMarker B", "@@ d/a\nInclude b\nSecAction id:2\n@@ d/b\nSecDefaultAction phase:2,drop\nSecRuleEngine Off",
    "@@ d/a\nInclude b\n@@ d/b\nInclude c/c\n@@ d/c/c\nInclude ../d\n@@ d/c/../d\nSecMarker D", "@@ d/a\nSecMarker A\n@@ d/a\nSecMarker B", "Include \\\nb\n@@ d/b\nSecMarker B",
]

DEEP = "@@ d/a\nInclude 1\n" + "\n".join("@@ d/%d\nInclude %d" % (n, n + 1) for n in range(1, 8)) + "\n@@ d/8\n"

SEVERAL = [
    (b"a,b", "@@ a\nSecRuleEngine detectiononly\nSecAction id:1\nSecRequestBodyLimit 1\n@@ b\nSecRuleRemoveById 1\nSecRequestBodyLimit 1073741824\n"
     "SecRequestBodyLimitAction ProcessPartial\nSecMarker B"),
    (b"a,b,c", "@@ a\nSecRuleEngine detectiononly\nSecAction id:1\n@@ b\nSecRuleRemoveById 1\n@@ c\nSecAction id:1"),
    (b"a,b,c", "@@ a\nSecRule ARGS a id:1\nSecPatternMode Bytes\n@@ b\nSecRule ARGS a id:2\nSecPatternMode Unicode\n@@ c\nSecRule ARGS a id:3"),
    (b"a,b", "@@ a\nSecAction id:1"), (b"a,b", "@@ b\nSecAction id:1"), (b"a,b", "@@ a\nSecAction id:1,chain\n@@ b\nSecAction log"), (b"a,a", "@@ a\nSecMarker A"),
    (b"a,a", "@@ a\nSecAction id:1"), (b"x/a,y/b", "@@ x/a\nInclude c\n@@ y/b\nInclude c\n@@ x/c\nSecMarker X\n@@ y/c\nSecMarker Y"), (b"a,b", "@@ a\nSecDefaultAction phase:2,deny\n@@ b\nSecAction id:1"),
    (b"none", "@@ a\nSecMarker A"), (b"/a,b", "@@ /a\nInclude c\n@@ /c\nSecMarker C\n@@ b\nInclude c\n@@ c\nSecMarker D"), (b"a,b", b"@@ a\nSecMarker A\n@@ b\n\xff"), (b"a,b", "@@ a\nSecFoo\n@@ b\nSecBar"),
    (b"a?,b*", "@@ a?\nSecMarker A\n@@ b*\nSecMarker B"), (b"a", DEEP.replace("d/", "")),
]

TARGETS = ["ARGS", "ARGS:a", "&ARGS", "!ARGS:b", "TX:/x/", "REMOTE_ADDR", "REQUEST_HEADERS:Host", "XML:/*", "ARGS:'a b'", "&TX:n"]
OPS = ["@streq a", "!@streq %{TX.a}", "@pm a b", "@rx ^a$", "abc", "@ipMatch ::1", "@noMatch", "@validateByteRange 1-9", "@eq 1"]
BAD_TARGETS, BAD_OPS, BAD_ACTS = ["GEO", "FOO"], ["@ipMatch x", "@rbl", "@foo"], ["t:foo", "exec:x", "msg:%{x}"]
ACTS = ["phase:1", "phase:3", "deny", "pass", "block", "status:404", "nolog", "msg:'a b'", "tag:t", "tag:u", "t:trim", "t:none", "capture", "multiMatch",
        "setvar:tx.a=1", "setvar:!tx.a", "ctl:ruleEngine=Off", "chain", "skip:1", "skipAfter:E", "severity:2", "redirect:/x", "logdata:%{MATCHED_VAR}", "allow:phase"]


def some(good, bad, count):
    return [DRAW.choice(bad) if DRAW.random() < 0.02 else one for one in DRAW.sample(good, count)]


def rule():
    acts = ["id:%d" % DRAW.randint(1, 30)] if DRAW.random() < 0.98 else []
    acts += some(ACTS, BAD_ACTS, DRAW.randint(0, 4))
    listed = '"%s"' % ",".join(acts)
    if DRAW.random() < 0.3:
        return "SecAction " + listed
    targets = "|".join(some(TARGETS, BAD_TARGETS, DRAW.randint(1, 2)))
    return 'SecRule "%s" "%s" %s' % (targets, some(OPS, BAD_OPS, 1)[0], listed)


def drawn():
    lines = []
    for _ in range(DRAW.randint(1, 4)):
        lines.append(rule())
        if "chain" in lines[-1] and DRAW.random() < 0.8:
            lines.append(DRAW.choice(['SecRule ARGS "@streq b" "t:trim"', "SecAction setvar:tx.b", 'SecRule TX:a "@eq 1"']))
        if DRAW.random() < 0.3:
            lines.append(DRAW.choice(["SecMarker E", "SecDefaultAction phase:2,deny", "SecRuleRemoveById 2-4", "SecRuleRemoveByTag t",
                                      "SecRuleEngine Off", "SecAuditLog x", "# note", "SecDefaultAction phase:1,nolog,status:406,drop"]))
    return "\n".join(lines)


def cases():
    for text in TEXTS:
        yield case(text)
    yield case(DEEP + "SecMarker end")
    yield case(DEEP + "Include 9\n@@ d/9\nSecMarker end")
    yield case(DEEP + "SecMarker end\nInclude 9")
    yield case(DEEP + "Include 9*")
    for name in reading.PASSED:
        yield case("%s\n%s a \"b c\" d\nSecMarker M" % (name, name.lower()))
    for name in reading.REFUSED:
        yield case("SecMarker M\n%s" % name.upper())
        yield case("%s x" % name)
    for names, text in SEVERAL:
        yield case(text, names)
    for _ in range(260):
        yield case(drawn())
    here = os.path.dirname(os.path.abspath(__file__))
    with open(os.path.join(here, "../../examples/realistic.rules"), "rb") as file:
        text = file.read()
    yield case(text, b"realistic.rules").replace(line(text), "<realistic.rules")


if __name__ == "__main__":
    write(sys.argv[1], HEAD, cases())
