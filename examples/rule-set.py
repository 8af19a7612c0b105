#!/usr/bin/env python3
"""Makes a configuration of the installed OWASP rule set (docs/CRS.md).

    python3 examples/rule-set.py FOLDER

FOLDER is made: it gets copies of the rule files, in which each rule that this agent does not read stands
as empty comments, so that all other lines keep their numbers; `rule-set.toml`, the configuration; and
`left-out.txt`, a line for each rule that was left out. The agent is asked by `check` until it reads all.

    --agent WORDS     how the agent is called (./yefontsila of this repository)
    --rules FOLDER    where the rule files lie (/usr/share/modsecurity-crs/rules)
    --setup FILE      the set's own settings (/etc/modsecurity/crs/crs-setup.conf)
    --mode MODE       how patterns are read: Bytes or Unicode (Bytes)"""

import argparse
import os
import re
import shlex
import shutil
import subprocess
import sys

HERE = os.path.dirname(os.path.abspath(__file__))

# settings of the agent, before the rule set; what HAProxy sends is for its own configuration to say
FIRST = """SecRuleEngine On
SecRequestBodyAccess On
SecRequestBodyLimit 65536
SecRequestBodyLimitAction ProcessPartial
SecResponseBodyAccess Off
SecPatternMode %s
"""

# exclusions for named applications: nearly all of their rules take targets out of others, which the agent can't do
APPLICATIONS = "REQUEST-903."

CONFIGURATION = """# The OWASP rule set, without what left-out.txt lists.
size = 65536
capacity = 4096
shards = 4
default = "site"

[[app]]
name = "site"
rules = %s
responses = false
"""


def arguments():
    words = argparse.ArgumentParser(description=__doc__.split("\n")[0])
    words.add_argument("folder")
    words.add_argument("--agent", default=os.path.join(HERE, "..", "yefontsila"))
    words.add_argument("--rules", default="/usr/share/modsecurity-crs/rules")
    words.add_argument("--setup", default="/etc/modsecurity/crs/crs-setup.conf")
    words.add_argument("--mode", choices=["Bytes", "Unicode"], default="Bytes")
    return words.parse_args()


def copied(options):
    """Copies the files; the names of those with rules, in the order in which they are read."""
    os.makedirs(options.folder, exist_ok=True)
    with open(os.path.join(options.folder, "agent-settings.conf"), "w") as out:
        out.write(FIRST % options.mode)
    shutil.copyfile(options.setup, os.path.join(options.folder, "crs-setup.conf"))
    names = ["agent-settings.conf", "crs-setup.conf"]
    for name in sorted(os.listdir(options.rules)):
        if name.startswith(APPLICATIONS):
            continue
        if name.endswith((".conf", ".data")):
            shutil.copyfile(os.path.join(options.rules, name), os.path.join(options.folder, name))
        if name.endswith(".conf"):
            names.append(name)
    with open(os.path.join(options.folder, "rule-set.toml"), "w") as out:
        out.write(CONFIGURATION % ("[\n" + "".join('    "%s",\n' % name for name in names) + "]"))
    return names


def directives(text):
    """For each directive of a file its first line, the line after its last, and its text."""
    lines, at = text.split("\n"), 0
    while at < len(lines):
        first, whole = at, lines[at].strip(" \t\r")
        while whole.endswith("\\") and not whole.startswith("#") and at + 1 < len(lines):
            at += 1
            whole = whole[:-1] + lines[at].strip(" \t\r")
        at += 1
        if whole and not whole.startswith("#"):
            yield first + 1, at + 1, whole


def goes_on(directive):
    """Whether the action list of a rule has `chain`."""
    words = re.findall(r'"(?:[^"\\]|\\.)*"|\S+', directive)
    return words[0].lower() in ("secrule", "secaction") and re.search(r"(^|,)\s*chain\s*(,|$)", words[-1].strip('"')) is not None


def around(text, line):
    """The first line, the line after the last and the text of the rule, with all of its links, of which a link
    begins in this line; or of the directive there."""
    rule = []
    for first, after, directive in directives(text):
        rule.append((first, after, directive))
        if goes_on(directive):
            continue
        if rule[0][0] <= line < after:
            return rule[0][0], after, "\n".join(one[2] for one in rule)
        rule = []
    return None


def leave_out(folder, file, line):
    """Leaves out what stands at a line; the text that is gone."""
    path = os.path.join(folder, os.path.basename(file))
    with open(path, encoding="utf-8") as read:
        text = read.read()
    found = around(text, line)
    if found is None:
        sys.exit("nothing stands at line %d of %s" % (line, path))
    first, after, directive = found
    lines = text.split("\n")
    lines[first - 1 : after - 1] = ["#"] * (after - first)
    with open(path, "w", encoding="utf-8") as out:
        out.write("\n".join(lines))
    return directive


def asked(options):
    """The agent's status, and the first line that it prints."""
    call = shlex.split(options.agent) + ["check", os.path.join(options.folder, "rule-set.toml")]
    done = subprocess.run(call, stdout=subprocess.PIPE, check=False)
    return done.returncode, done.stdout.decode("utf-8", "replace").split("\n")[0]


def main():
    options = arguments()
    names = copied(options)
    gone = []
    while True:
        status, told = asked(options)
        if status == 0:
            break
        place = re.match(r"(.*?):(\d+): (.*)$", told)
        if status != 3 or not place:
            sys.exit("the agent ended with status %d: %s" % (status, told))
        directive = leave_out(options.folder, place[1], int(place[2]))
        rule = re.search(r"\bid:\s*'?(\d+)", directive)
        gone.append("%s:%s: %s (%s)" % (os.path.basename(place[1]), place[2], place[3], "rule " + rule[1] if rule else directive.split()[0]))
    with open(os.path.join(options.folder, "left-out.txt"), "w") as out:
        out.write("".join(one + "\n" for one in gone))
    print("%d files are read; %d rules and directives are left out: %s" % (len(names), len(gone), os.path.join(options.folder, "left-out.txt")))


if __name__ == "__main__":
    main()
