"""Cases of rules with a request and a response. What they come to is worked out by hand."""

import sys

from case_words import line, quoted, write

HEAD = """Rules, a request, and a response or `-`; then the verdict on the request, the verdict on the response,
each `-` or what is done, its status and its rule, and the log lines, each its rule, message and log data.
Requests and responses are written as in variables.txt. They are judged by the definition, phase by phase,
and by halves, and the three must agree.
Worked out by hand from the rules: tools/cases/rules.py."""

GET = "GET /"
ARGS = "GET /?a=1&b=2&c=AbC"
FORM = "POST /\ncontent-type: application/x-www-form-urlencoded\r\n\na=12345"
TEXT = "POST /\ncontent-type: text/plain\r\n\na=12345"
OK = "200"
FAILED = "500"
LEAK = "200\ncontent-type: text/plain; charset=utf-8\r\n\na leak"

SET = 'SecAction "id:1,phase:1,pass,nolog,setvar:tx.a=1"\n'

CASES = [
    # links of a chain
    ("SecRule REQUEST_METHOD \"@streq GET\" \"id:1,phase:1,deny,nolog,setvar:tx.a=1,chain\"\nSecRule REQUEST_URI \"@streq /no\" chain\n"
     "SecRule REQUEST_PROTOCOL \"@unconditionalMatch\"\nSecRule TX:a \"@eq 1\" \"id:2,phase:1,pass,log,msg:'a stays'\"", GET, "-", '- - 2 "a stays" ""'),
    ("SecRule REQUEST_METHOD \"@streq GET\" \"id:1,phase:1,deny,log,msg:'%{TX.a} by %{MATCHED_VAR_NAME}',chain\"\n"
     "SecRule REQUEST_PROTOCOL \"@streq HTTP/1.1\" \"setvar:tx.a=2\"", GET, "-", 'deny 403 1 - 1 "2 by REQUEST_PROTOCOL" ""'),
    ("SecAction \"id:1,phase:1,deny,log,chain\"\nSecAction \"setvar:tx.a=1,chain\"\nSecRule TX:a \"!@eq 1\"\nSecRule TX:a \"@eq 1\" \"id:2,phase:1,pass,msg:in\"",
     GET, "-", '- - 2 "in" ""'),
    # jumps and skips
    ("SecRule REQUEST_METHOD \"@streq GET\" \"id:1,phase:1,pass,nolog,skipAfter:END\"\nSecAction \"id:2,phase:2,nolog,pass,setvar:tx.two=1\"\n"
     "SecAction \"id:3,phase:1,nolog,pass,setvar:tx.three=1\"\nSecMarker END\nSecRule &TX:two \"@eq 1\" \"id:4,phase:2,pass,log,msg:'two'\"\n"
     "SecRule &TX:three \"@eq 0\" \"id:5,phase:2,pass,log,msg:'no three'\"", GET, "-", '- - 4 "two" "" 5 "no three" ""'),
    ("SecAction \"id:1,phase:1,pass,nolog,skipAfter:NOWHERE\"\nSecAction \"id:2,phase:1,deny\"\nSecAction \"id:3,phase:2,pass,log,msg:'on'\"", GET, "-", '- - 3 "on" ""'),
    ("SecAction \"id:1,phase:1,pass,nolog,skip:1\"\nSecAction \"id:2,phase:2,pass,log,msg:'two'\"\nSecAction \"id:3,phase:1,pass,log,msg:'three'\"\n"
     "SecAction \"id:4,phase:1,pass,log,msg:'four'\"", GET, "-", '- - 4 "four" "" 2 "two" ""'),
    ("SecAction \"id:1,phase:1,pass,nolog,skip:1,skipAfter:END\"\nSecAction \"id:2,phase:1,deny\"\nSecAction \"id:3,phase:1,deny\"\nSecMarker END\n"
     "SecAction \"id:4,phase:1,pass,msg:four\"", GET, "-", '- - 4 "four" ""'),
    ("SecAction \"id:1,phase:1,pass,nolog,skipAfter:end\"\nSecMarker END\nSecAction \"id:2,phase:1,deny\"\nSecMarker end\nSecAction \"id:3,phase:1,pass,msg:m\"",
     GET, "-", '- - 3 "m" ""'),
    ("SecMarker END\nSecAction \"id:1,phase:1,pass,nolog,skipAfter:END\"\nSecAction \"id:2,phase:1,deny\"", GET, "-", "- -"),
    ("SecAction \"id:1,phase:1,pass,nolog,skip:20000\"\nSecAction \"id:2,phase:1,deny\"\nSecAction \"id:3,phase:2,pass,msg:b\"", GET, "-", '- - 3 "b" ""'),
    ("SecAction \"id:1,phase:1,deny,nolog,skip:1\"\nSecAction \"id:2,phase:1,pass,log\"", GET, "-", "deny 403 1 -"),
    # the engine
    ("SecRuleEngine DetectionOnly\nSecRule REQUEST_METHOD \"@streq GET\" \"id:9,phase:1,drop,log,msg:'seen'\"", GET, "-", '- - 9 "seen" ""'),
    ("SecRuleEngine Off\nSecAction \"id:1,phase:1,deny,log,msg:'seen'\"", GET, "-", "- -"),
    ("SecAction \"id:1,phase:1,pass,nolog,ctl:ruleEngine=Off\"\nSecAction \"id:2,phase:1,deny\"\nSecAction \"id:3,phase:5,pass,log,msg:'end'\"", GET, "-", "- -"),
    ("SecAction \"id:1,phase:1,deny,log,msg:one,ctl:ruleEngine=DetectionOnly\"\nSecAction \"id:2,phase:2,drop,msg:two\"", GET, "-", '- - 1 "one" "" 2 "two" ""'),
    ("SecRuleEngine DetectionOnly\nSecAction \"id:1,phase:1,pass,nolog,ctl:ruleEngine=On\"\nSecAction \"id:2,phase:1,deny,nolog\"", GET, "-", "deny 403 2 -"),
    ("SecRuleEngine DetectionOnly\nSecAction \"id:1,phase:1,allow,nolog\"\nSecAction \"id:2,phase:1,pass,msg:on\"", GET, "-", '- - 2 "on" ""'),
    # the request's body
    ("SecRequestBodyLimit 6\nSecAction \"id:1,phase:2,pass,log,msg:'%{REQUEST_BODY_LENGTH} bytes'\"\nSecAction \"id:2,phase:5,pass,log,msg:'end'\"", FORM, "-",
     'deny 413 0 - 2 "end" ""'),
    ("SecRequestBodyLimit 7\nSecAction \"id:1,phase:2,pass,log,msg:'%{REQUEST_BODY_LENGTH} bytes'\"", FORM, "-", '- - 1 "7 bytes" ""'),
    ("SecRequestBodyLimit 6\nSecRequestBodyLimitAction ProcessPartial\nSecRule INBOUND_DATA_ERROR \"@eq 1\" \"id:1,phase:2,pass,log,"
     "msg:'%{REQUEST_BODY_LENGTH} bytes',logdata:'%{ARGS.a}'\"", FORM, "-", '- - 1 "6 bytes" "1234"'),
    ("SecRuleEngine DetectionOnly\nSecRequestBodyLimit 6\nSecAction \"id:1,phase:2,pass,log,msg:'%{REQUEST_BODY_LENGTH} bytes'\"", FORM, "-", '- - 1 "6 bytes" ""'),
    ("SecRequestBodyAccess Off\nSecRule &REQUEST_BODY|&ARGS_POST \"@eq 0\" \"id:1,phase:2,pass,log,msg:'%{MATCHED_VAR_NAME}'\"", FORM, "-", '- - 1 "&ARGS_POST" ""'),
    ("SecRequestBodyLimit 6\nSecAction \"id:1,phase:1,pass,nolog,ctl:requestBodyAccess=Off\"\nSecRule &REQUEST_BODY \"@eq 0\" \"id:2,phase:2,pass,msg:unread\"", FORM, "-",
     '- - 2 "unread" ""'),
    ("SecRequestBodyAccess Off\nSecAction \"id:1,phase:1,pass,nolog,ctl:requestBodyAccess=On\"\nSecAction \"id:2,phase:2,pass,msg:'%{ARGS.a}'\"", FORM, "-", '- - 2 "12345" ""'),
    ("SecAction \"id:1,phase:2,pass,nolog,ctl:requestBodyAccess=Off,ctl:requestBodyProcessor=XML\"\nSecAction \"id:2,phase:2,pass,msg:'%{REQUEST_BODY} %{REQBODY_PROCESSOR}'\"",
     FORM, "-", '- - 2 "a=12345 URLENCODED" ""'),
    ("SecAction \"id:1,phase:1,pass,nolog,ctl:requestBodyProcessor=URLENCODED\"\nSecRule REQBODY_PROCESSOR \"@streq URLENCODED\" \"id:2,phase:2,pass,log,msg:'%{ARGS_POST.a}'\"",
     TEXT, "-", '- - 2 "12345" ""'),
    ("SecAction \"id:1,phase:1,pass,nolog,ctl:requestBodyProcessor=XML\"\nSecRule &ARGS_POST \"@eq 0\" \"id:2,phase:2,pass,msg:'%{REQBODY_PROCESSOR}'\"", FORM, "-", '- - 2 "XML" ""'),
    ("SecRule REQUEST_BODY \"@contains 12345\" \"id:1,phase:1,deny\"\nSecRule REQUEST_BODY \"@contains 12345\" \"id:2,phase:2,deny,nolog\"", TEXT, "-", "deny 403 2 -"),
    ("SecRequestBodyLimit 6\nSecAction \"id:1,phase:1,allow:request,nolog\"\nSecAction \"id:2,phase:3,pass,msg:three\"", FORM, OK, '- - 2 "three" ""'),
    # captured and matched texts
    ("SecRule REQUEST_METHOD \"@rx G(.)\" \"id:1,phase:1,capture,pass,log,msg:'%{TX.1} of %{MATCHED_VAR} in %{MATCHED_VAR_NAME}',logdata:'%{TX.0}'\"", GET, "-",
     '- - 1 "E of GET in REQUEST_METHOD" "GE"'),
    ("SecRule REQUEST_METHOD \"@rx (x)|(E)\" \"id:1,phase:1,capture,pass,msg:'[%{TX.0}][%{TX.1}][%{TX.2}]'\"\nSecRule &TX:1 \"@eq 0\" \"id:2,phase:1,pass,msg:none\"", GET, "-",
     '- - 1 "[E][][E]" "" 2 "none" ""'),
    ("SecRule REQUEST_METHOD \"@rx (G)\" \"id:1,phase:1,capture,pass,nolog\"\nSecRule REQUEST_METHOD \"@rx (E)\" \"id:2,phase:1,pass,msg:'%{TX.1}'\"", GET, "-", '- - 2 "G" ""'),
    ("SecRule REQUEST_METHOD \"@rx (G)\" \"id:1,phase:1,capture,pass,nolog\"\nSecRule REQUEST_METHOD \"@pm xt et\" \"id:2,phase:1,capture,pass,msg:'%{TX.0}/%{TX.1}'\"", GET, "-",
     '- - 2 "ET/" ""'),
    ("SecRule REQUEST_METHOD \"@rx (G)\" \"id:1,phase:1,capture,pass,nolog\"\nSecRule REQUEST_METHOD \"@streq GET\" \"id:2,phase:1,capture,pass,msg:'%{TX.1}'\"", GET, "-", '- - 2 "G" ""'),
    ("SecRule REQUEST_METHOD \"@rx (G)\" \"id:1,phase:1,capture,pass,nolog\"\nSecRule REQUEST_METHOD \"!@rx (X)\" \"id:2,phase:1,capture,pass,msg:'%{TX.1}'\"", GET, "-", '- - 2 "G" ""'),
    ("SecRule ARGS \"@rx ^(.)\" \"id:1,phase:1,capture,pass,msg:'%{TX.0}'\"", ARGS, "-", '- - 1 "A" ""'),
    ("SecRule ARGS \"@unconditionalMatch\" \"id:1,phase:1,pass,log,msg:'%{TX.n}',chain\"\nSecRule ARGS:a|ARGS:b \"@unconditionalMatch\" \"chain\"\n"
     "SecRule &MATCHED_VARS \"@eq 2\" \"setvar:tx.n=%{MATCHED_VAR}\"", ARGS, "-", '- - 1 "2" ""'),
    ("SecRule ARGS \"@unconditionalMatch\" \"id:1,phase:1,pass,nolog\"\nSecAction \"id:2,phase:1,pass,msg:'%{MATCHED_VAR_NAME}'\"\n"
     "SecRule MATCHED_VARS_NAMES \"@streq ARGS:b\" \"id:3,phase:1,pass,msg:'%{MATCHED_VAR}'\"", ARGS, "-", '- - 2 "ARGS:c" "" 3 "ARGS:b" ""'),
    ("SecRule ARGS:none \"@unconditionalMatch\" \"id:1,phase:1,deny\"\nSecRule &ARGS:none \"@eq 0\" \"id:2,phase:1,pass,msg:'%{MATCHED_VAR_NAME}'\"", ARGS, "-",
     '- - 2 "&ARGS:none" ""'),
    ("SecRule ARGS:/^[ab]$/ \"@unconditionalMatch\" \"id:1,phase:1,pass,msg:'%{MATCHED_VARS.ARGS:A}%{MATCHED_VARS}'\"", ARGS, "-", '- - 1 "11" ""'),
    # variables of TX
    ("SecRule ARGS \"@rx ^[0-9]$\" \"id:1,phase:1,pass,log,msg:'%{TX.sum}',setvar:tx.sum=+%{MATCHED_VAR}\"", ARGS, "-", '- - 1 "3" ""'),
    ("SecAction \"id:1,phase:1,pass,nolog,setvar:tx.a=9223372036854775806,setvar:tx.a=+2,setvar:tx.b=-9223372036854775808,setvar:tx.b=-1\"\n"
     "SecAction \"id:2,phase:1,pass,log,msg:'%{TX.a} %{TX.b}'\"", GET, "-", '- - 2 "9223372036854775807 -9223372036854775808" ""'),
    ("SecAction \"id:1,phase:1,pass,nolog,setvar:tx.a=1,setvar:tx.b=2,setvar:!tx.A\"\nSecRule &TX:a \"@eq 0\" \"id:2,phase:1,pass,log,msg:'%{TX.B}'\"", GET, "-", '- - 2 "2" ""'),
    ("SecAction \"id:1,phase:1,pass,nolog,setvar:tx.a,setvar:tx.b= 7x,setvar:tx.b=+1,setvar:tx.c=-5,setvar:tx.d=x,setvar:tx.d=-3\"\n"
     "SecAction \"id:2,phase:1,pass,msg:'%{TX.a} %{TX.b} %{TX.c} %{TX.d}'\"", GET, "-", '- - 2 "1 8 -5 -3" ""'),
    ("SecAction \"id:1,phase:1,pass,nolog,setvar:tx.n=k,setvar:tx.%{TX.n}=v,setvar:'tx.%{TX.none}=x'\"\nSecAction \"id:2,phase:1,pass,msg:'%{TX.k}',chain\"\n"
     "SecRule &TX \"@eq 2\"", GET, "-", '- - 2 "v" ""'),
    ("SecAction \"id:1,phase:1,pass,nolog,setvar:tx.b=1,setvar:tx.a=2,setvar:tx.B=3\"\nSecRule TX \"@unconditionalMatch\" \"id:2,phase:1,pass,msg:'%{MATCHED_VAR_NAME}=%{MATCHED_VAR}'\"",
     GET, "-", '- - 2 "TX:a=2" ""'),
    ("SecAction \"id:1,phase:1,pass,nolog,setvar:tx.0=own\"\nSecRule REQUEST_METHOD \"@rx ET\" \"id:2,phase:1,capture,pass,msg:'%{TX.0}'\"", GET, "-", '- - 2 "ET" ""'),
    # operators and transformations
    ("SecRule ARGS \"!@streq 1\" \"id:1,phase:1,pass,log,msg:'%{MATCHED_VAR_NAME}'\"", ARGS, "-", '- - 1 "ARGS:c" ""'),
    ("SecRule ARGS:c \"!@streq abc\" \"id:1,phase:1,pass,log,t:lowercase,t:length,multiMatch,msg:'no hit'\"\n"
     "SecRule ARGS:c \"@streq abc\" \"id:2,phase:1,pass,log,t:lowercase,t:length,multiMatch,msg:'%{MATCHED_VAR}'\"\n"
     "SecRule ARGS:c \"@streq abc\" \"id:3,phase:1,pass,log,t:lowercase,t:length,msg:'no chain'\"", ARGS, "-", '- - 2 "abc" ""'),
    ("SecRule &ARGS|!ARGS:b \"@eq 2\" \"id:1,phase:1,pass,log,msg:'%{MATCHED_VAR}'\"", ARGS, "-", '- - 1 "2" ""'),
    ("SecRule ARGS:c \"!@streq x\" \"id:1,phase:1,pass,t:lowercase,multiMatch,msg:'%{MATCHED_VAR}'\"", ARGS, "-", '- - 1 "abc" ""'),
    ("SecRule ARGS:c \"@rx c\" \"id:1,phase:1,pass,t:lowercase,msg:'%{MATCHED_VAR}'\"\nSecRule ARGS:c \"@rx c\" \"id:2,phase:1,deny\"", ARGS, "-", '- - 1 "abc" ""'),
    ("SecRule ARGS \"@streq %{ARGS.b}\" \"id:1,phase:1,pass,msg:'%{MATCHED_VAR_NAME}'\"", ARGS, "-", '- - 1 "ARGS:b" ""'),
    ("SecRule ARGS \"@streq %{MATCHED_VAR}\" \"id:1,phase:1,deny\"\nSecRule ARGS:a \"@eq 1\" \"id:2,phase:1,pass,nolog\"\nSecRule ARGS \"@streq %{MATCHED_VAR}\" \"id:3,phase:1,pass,msg:'%{MATCHED_VAR_NAME}'\"",
     ARGS, "-", '- - 3 "ARGS:a" ""'),
    ("SecRule REMOTE_ADDR \"@ipMatch 192.0.2.0/24\" \"id:1,phase:1,pass,msg:in\"\nSecRule REMOTE_ADDR \"!@ipMatch 192.0.2.0/25\" \"id:2,phase:1,deny\"", GET, "-", '- - 1 "in" ""'),
    ("SecRule ARGS \"@validateByteRange 0-90\" \"id:1,phase:1,pass,msg:'%{MATCHED_VAR_NAME}'\"", ARGS, "-", '- - 1 "ARGS:c" ""'),
    ("SecRule REQUEST_METHOD \"@noMatch\" \"id:1,phase:1,deny\"\nSecRule REQUEST_METHOD \"!@noMatch\" \"id:2,phase:1,pass,msg:x\"", GET, "-", '- - 2 "x" ""'),
    ("SecRule ARGS:c \"@streq 3\" \"id:1,phase:1,pass,t:length,msg:'%{MATCHED_VAR}'\"", ARGS, "-", '- - 1 "3" ""'),
    # removed rules
    ("SecAction \"id:1,phase:1,pass,nolog,ctl:ruleRemoveById=2-3,ctl:ruleRemoveByTag=noise\"\nSecAction \"id:2,phase:1,deny\"\nSecAction \"id:3,phase:2,deny\"\n"
     "SecAction \"id:4,phase:2,pass,log,tag:noise,msg:'noise'\"\nSecAction \"id:5,phase:2,pass,log,msg:'left'\"", GET, "-", '- - 5 "left" ""'),
    ("SecAction \"id:1,phase:1,pass,nolog,skip:1,ctl:ruleRemoveById=2\"\nSecAction \"id:2,phase:1,pass,log,msg:'two'\"\nSecAction \"id:3,phase:1,pass,log,msg:'three'\"",
     GET, "-", '- - 3 "three" ""'),
    ("SecAction \"id:1,phase:1,pass,nolog,ctl:ruleRemoveByTag=Noise\"\nSecAction \"id:2,phase:1,pass,tag:noise,msg:kept\"", GET, "-", '- - 2 "kept" ""'),
    ("SecAction \"id:1,phase:1,pass,nolog,ctl:ruleRemoveById=4\"\nSecAction \"id:4,phase:3,deny\"\nSecAction \"id:5,phase:5,pass,msg:end\"", GET, OK, '- - 5 "end" ""'),
    ("SecRule REQUEST_METHOD \"@streq GET\" \"id:1,phase:1,deny,nolog,ctl:ruleRemoveById=2,chain\"\nSecRule REQUEST_METHOD \"@streq PUT\"\nSecAction \"id:2,phase:1,drop\"", GET, "-", "- -"),
    ("SecRuleRemoveById 2\nSecAction \"id:1,phase:1,pass,nolog,skip:1\"\nSecAction \"id:2,phase:1,deny\"\nSecAction \"id:3,phase:1,deny\"\nSecAction \"id:4,phase:1,pass,msg:four\"", GET, "-",
     '- - 4 "four" ""'),
    # the response
    (SET + "SecRule RESPONSE_STATUS \"@streq 500\" \"id:7,phase:3,deny,log,msg:'%{TX.a}'\"", GET, FAILED, '- deny 403 7 7 "1" ""'),
    (SET + "SecRule RESPONSE_STATUS \"@streq 500\" \"id:7,phase:3,deny,log,msg:'%{TX.a}'\"", GET, OK, "- -"),
    (SET + "SecRule RESPONSE_STATUS \"@streq 500\" \"id:7,phase:3,deny,log,msg:'%{TX.a}'\"", GET, "-", "- -"),
    ("SecRule RESPONSE_BODY \"@contains leak\" \"id:1,phase:4,deny,status:502,log,msg:'%{RESPONSE_CONTENT_TYPE}'\"\nSecAction \"id:2,phase:3,pass,nolog,ctl:responseBodyAccess=On\"\n"
     "SecRule &RESPONSE_BODY \"@eq 0\" \"id:3,phase:4,pass,log,msg:'not read'\"", GET, LEAK, '- - 3 "not read" ""'),
    ("SecAction \"id:2,phase:2,pass,nolog,ctl:responseBodyAccess=On\"\nSecRule RESPONSE_BODY \"@contains leak\" \"id:1,phase:4,drop,msg:'%{RESPONSE_CONTENT_LENGTH}'\"", GET, LEAK,
     '- drop 403 1 1 "6" ""'),
    ("SecResponseBodyAccess On\nSecRule RESPONSE_BODY \"@contains leak\" \"id:1,phase:4,deny,status:502,log,msg:'%{RESPONSE_CONTENT_TYPE}'\"", GET, LEAK, '- deny 502 1 1 "text/plain" ""'),
    ("SecResponseBodyAccess On\nSecAction \"id:2,phase:1,pass,nolog,ctl:responseBodyAccess=Off\"\nSecRule RESPONSE_BODY \"@contains leak\" \"id:1,phase:4,deny\"", GET, LEAK, "- -"),
    ("SecRule RESPONSE_HEADERS:Content-Type \"@beginsWith text/\" \"id:1,phase:3,redirect:'/r?%{RESPONSE_STATUS}',status:303,nolog\"", GET, LEAK, '- redirect "/r?200" 303 1'),
    ("SecAction \"id:1,phase:3,allow:request,nolog\"\nSecAction \"id:2,phase:3,deny\"\nSecAction \"id:3,phase:4,pass,msg:four\"", GET, OK, '- - 3 "four" ""'),
    ("SecAction \"id:1,phase:3,allow,nolog\"\nSecAction \"id:2,phase:4,deny\"\nSecAction \"id:3,phase:5,pass,msg:end\"", GET, OK, '- - 3 "end" ""'),
    ("SecAction \"id:1,phase:3,allow:phase,nolog\"\nSecAction \"id:2,phase:3,drop\"\nSecAction \"id:3,phase:4,deny,nolog,status:599\"", GET, OK, "- deny 599 3"),
    ("SecAction \"id:1,phase:3,deny,nolog\"\nSecAction \"id:2,phase:4,pass,msg:four\"\nSecAction \"id:3,phase:5,pass,msg:'%{RESPONSE_STATUS}'\"", GET, OK, '- deny 403 1 3 "200" ""'),
    ("SecAction \"id:1,phase:1,deny,nolog\"\nSecAction \"id:2,phase:3,pass,msg:three\"\nSecRule &RESPONSE_STATUS \"@eq 0\" \"id:3,phase:5,pass,msg:none\"", GET, OK,
     'deny 403 1 - 3 "none" ""'),
    ("SecRule &RESPONSE_STATUS \"@eq 0\" \"id:1,phase:1,pass,msg:'before'\"\nSecRule RESPONSE_PROTOCOL \"@streq HTTP/1.0\" \"id:2,phase:3,pass,msg:'after'\"", GET, "204 1.0",
     '- - 1 "before" "" 2 "after" ""'),
    # the logging phase
    ("SecAction \"id:1,phase:5,deny,log,msg:'one'\"\nSecAction \"id:2,phase:5,pass,log,msg:'two'\"", GET, "-", '- - 1 "one" "" 2 "two" ""'),
    ("SecAction \"id:1,phase:5,allow,log,msg:'one'\"\nSecAction \"id:2,phase:5,pass,log,msg:'two'\"", GET, OK, '- - 1 "one" "" 2 "two" ""'),
    ("SecAction \"id:1,phase:5,deny,nolog,skipAfter:E\"\nSecAction \"id:2,phase:5,pass,msg:two\"\nSecMarker E\nSecAction \"id:3,phase:5,pass,msg:three\"", GET, "-", '- - 3 "three" ""'),
    ("SecAction \"id:1,phase:2,pass,nolog,ctl:ruleEngine=Off\"\nSecAction \"id:2,phase:5,pass,msg:end\"", GET, OK, "- -"),
    # defaults
    ("SecDefaultAction \"phase:1,deny,status:409,nolog\"\nSecAction \"id:1,phase:1\"", GET, "-", "deny 409 1 -"),
    ("SecDefaultAction \"phase:1,redirect:/x,log\"\nSecAction \"id:1,phase:1,block,msg:b\"", GET, "-", 'redirect "/x" 302 1 - 1 "b" ""'),
    # nothing at all
    ("", GET, "-", "- -"),
    ("SecMarker A", ARGS, OK, "- -"),
]

AFTER = 'SecAction "id:2,phase:1,deny,nolog,status:502"\nSecAction "id:3,phase:2,deny,nolog,status:503"\n' \
        'SecAction "id:4,phase:3,deny,nolog,status:504"\nSecAction "id:5,phase:5,pass,log,msg:\'end\'"\n'

DISRUPTIONS = [
    ("deny", "deny 403 1 -"), ("deny,status:401", "deny 401 1 -"), ("drop", "drop 403 1 -"), ("drop,status:404", "drop 404 1 -"),
    ("redirect:/at%{REQUEST_METHOD}", 'redirect "/atGET" 302 1 -'), ("redirect:/there,status:307", 'redirect "/there" 307 1 -'),
    ("redirect:/there,status:301", 'redirect "/there" 301 1 -'), ("redirect:/there,status:302", 'redirect "/there" 302 1 -'),
    ("redirect:/there,status:303", 'redirect "/there" 303 1 -'), ("redirect:/there,status:304", 'redirect "/there" 302 1 -'),
    ("redirect:/there,status:308", 'redirect "/there" 308 1 -'), ("redirect:/there,status:403", 'redirect "/there" 302 1 -'),
    ("pass", "deny 502 2 -"), ("allow", "- -"), ("allow:phase", "deny 503 3 -"), ("allow:request", "- deny 504 4"),
]

# A value that fills the room of all variables to the last byte, and one that is too long by one.
DOUBLED = ",".join(["setvar:'tx.a=%{tx.a}%{tx.a}x'"] * 14)
FILLING = 'SecAction "id:1,phase:1,pass,nolog,setvar:tx.a=x,%s,setvar:\'tx.b=%s\'"\nSecRule &TX:b "@eq 1" "id:2,phase:1,pass,msg:\'b fits\'"'

HOST = "Host: example.org\r\nUser-Agent: test\r\n\n"
CHECK = "User-Agent: HealthCheck/1.0\r\n\n"
SCORE = '"Inbound Anomaly Score Exceeded (Total Score: %d)" ""'
DENIED = "deny 403 949110 - "

REALISTIC = [
    ("GET /search?a=<script>&b=%3Cscript%3E&c=javascript:x\n" + HOST, "-",
     DENIED + '941110 "XSS filter" "Matched Data: javascript: found within ARGS:c: javascript:x" 949110 ' + SCORE % 15),
    ("GET /search?q=cats+and+dogs\n" + HOST, "503\n\nBegin-RSA-Private-Key", '- - 950100 "The server answered an error" "503"'),
    ("PUT / 1.1 127.0.0.1\n" + CHECK, "-", "- -"),
    ("PUT / 1.1 ::1\n" + CHECK, "503", "- -"),
    ("PUT /\n" + CHECK, "-", DENIED + '911100 "Method is not allowed by policy" "PUT" 920280 "Request without a Host header" "" 949110 ' + SCORE % 8),
    ("GET /\nUser-Agent: test\r\n\n", "-", '- - 920280 "Request without a Host header" ""'),
    ("GET /a/../../etc/hosts\n" + HOST, "-", DENIED + '930110 "Path traversal (/../)" "/../ in REQUEST_FILENAME" 949110 ' + SCORE % 5),
    ("POST /send\nHost: example.org\r\nContent-Type: application/x-www-form-urlencoded\r\n\nname=x&note=union/**/select", "-",
     DENIED + '942190 "SQL injection" "union/**/select" 949110 ' + SCORE % 5),
    ("POST /send\nHost: example.org\r\nContent-Type: text/plain\r\n\nname=x&note=union/**/select", "-", "- -"),
    ("GET /\nHost: example.org\r\nCookie: a=/etc/passwd\r\n\n", "-", DENIED + '932160 "Remote command" "/etc/passwd" 949110 ' + SCORE % 5),
    ("GET /\nHost: example.org\r\nCookie: x__utmz=/etc/passwd\r\n\n", "-", "- -"),
    ("GET /?q=a%00b\n" + HOST, "-", DENIED + '920270 "Null byte" "" 949110 ' + SCORE % 10),
    ("GET /?q=a%2500b\n" + HOST, "200", DENIED + '920270 "Null byte" "" 949110 ' + SCORE % 5),
    ("GET /?q=..%2F\n" + HOST, "200", DENIED + '930110 "Path traversal (/../)" "../ in ARGS:q" 949110 ' + SCORE % 5),
    ("TRACE /\n" + HOST, "200", DENIED + '911100 "Method is not allowed by policy" "TRACE" 949110 ' + SCORE % 5),
    ("OPTIONS /\n" + HOST, "599", '- - 950100 "The server answered an error" "599"'),
    ("GET /\n" + HOST, "5000", "- -"),
    ("GET /?/ETC/SHADOW=1\n" + HOST, "200", DENIED + '932160 "Remote command" "/etc/shadow" 949110 ' + SCORE % 5),
]


def cases():
    for rules, request, response, told in CASES:
        yield line(rules.encode(), request.encode(), response.encode(), told)
    for action, told in DISRUPTIONS:
        rules = 'SecAction "id:1,phase:1,nolog,%s"\n' % action + AFTER
        yield line(rules.encode(), GET.encode(), OK.encode(), told + ' 5 "end" ""')
    yield line((FILLING % (DOUBLED, "%{tx.a}")).encode(), GET.encode(), b"-", '- - 2 "b fits" ""')
    yield line((FILLING % (DOUBLED, "%{tx.a}x")).encode(), GET.encode(), b"-", "- -")
    for request, response, told in REALISTIC:
        yield "<realistic.rules %s %s %s" % (quoted(request), quoted(response), told)


if __name__ == "__main__":
    write(sys.argv[1], HEAD, cases())
