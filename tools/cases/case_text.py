"""How words are written in a case file."""

import os

DATA = os.path.join(os.path.dirname(os.path.abspath(__file__)), "..", "..", "crates", "cases", "data")


def quoted(text):
    out = '"'
    for byte in text:
        char = chr(byte)
        if char in '"\\':
            out += "\\" + char
        elif 32 <= byte <= 126:
            out += char
        else:
            out += "\\x%02x" % byte
    return out + '"'


def line(*words):
    """Bytes are written in quotes, all else as it is."""
    return " ".join(quoted(w) if isinstance(w, bytes) else str(w) for w in words)


def write(name, comment, lines):
    """Writes a case file of data/, each case once."""
    seen, kept = set(), []
    for one in lines:
        if one.startswith("#") or one not in seen:
            kept.append(one)
            seen.add(one)
    with open(os.path.join(DATA, name), "w") as out:
        for text in comment.strip().split("\n"):
            out.write(("# " + text).rstrip() + "\n")
        out.write("\n".join(kept) + "\n")
    print("%s: %d cases" % (name, sum(1 for one in kept if one and not one.startswith("#"))))
