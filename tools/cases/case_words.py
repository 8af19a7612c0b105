"""Words of case lines: plain ones, and those in quotes."""


def quoted(data):
    """A text as a quoted word."""
    if isinstance(data, str):
        data = data.encode()
    out = ['"']
    for byte in data:
        if byte in b'"\\':
            out.append("\\" + chr(byte))
        elif byte == 10:
            out.append("\\n")
        elif byte == 13:
            out.append("\\r")
        elif byte == 9:
            out.append("\\t")
        elif 32 <= byte < 127:
            out.append(chr(byte))
        else:
            out.append("\\x%02x" % byte)
    return "".join(out) + '"'


def line(*words):
    """A case line: bytes are quoted words, and other values plain ones."""
    return " ".join(quoted(w) if isinstance(w, bytes) else str(w) for w in words)


def write(name, head, cases):
    """Writes the file of these cases, each once, below its comment."""
    lines = ["# " + text if text else "#" for text in head.strip().splitlines()]
    seen = set()
    for case in cases:
        if case and not case.startswith("#"):
            if case in seen:
                continue
            seen.add(case)
        lines.append(case)
    with open(name, "w") as out:
        out.write("\n".join(lines) + "\n")
    print(name, len(seen))
