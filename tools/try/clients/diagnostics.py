#!/usr/bin/env python3
"""Compares what `tbc lsp` publishes of 300 generated sources with what `tbc check` says of them, finding by finding.

    diagnostics.py TBC
"""
import json
import random
import re
import subprocess
import sys
import tempfile

SOURCES = 300
STATEMENTS = (
    "LET A=A+1", "B=RND(6)", "PRINT A;B", "PRIMT A", "GOTO #", "GOSUB #", "IF A<9 THEN GOTO #", "IF A=1 THEN 20", "?A",
    'PRINT "OPEN', "FOR I=1 TO 9", "REM a remark", "RETURN", "END", "A=1/0", "PRINT RND(1)", "LET A=70000", "A=(1", "\tA=1",
    "INPUT A,B", "PRINT CHR$(65)", "A=B%C", "STOP", "", "A=1:B=2", "PRINT \"é\"", "GOTO 40000", "A=RND(2+4)*RND(1000)",
    'PRINT "A":', "A=$C0", "A=0X2F", "' REMARK", "RUN", "A=USR(1)", "NEW", "A=-40000", "PRINT 32768",
)


def source(choices):
    """A source with good and bad lines, numbers that come again or are missing, and lines of spaces."""
    lines = []
    for _ in range(choices.randrange(1, 12)):
        number = choices.choice(("", "0", "32768")) if choices.random() < 0.06 else str(10 * choices.randrange(1, 9))
        statement = choices.choice(STATEMENTS).replace("#", str(10 * choices.randrange(1, 9)))
        lines.append(f"{number} {statement}" if choices.random() < 0.95 else " ")
    return choices.choice(("\n", "\r\n")).join(lines) + choices.choice(("", "\n"))


def checked(tbc, text):
    """The findings of `tbc check`: line, column or 0, kind and text, with its note."""
    with tempfile.NamedTemporaryFile(suffix=".bas") as file:
        file.write(text.encode())
        file.flush()
        said = subprocess.run([tbc, "check", file.name], capture_output=True, check=False).stdout.decode()
    found = []
    for line in said.splitlines():
        match = re.match(r"[^:]*:(?:(\d+):)?(?:(\d+):)? (error|warning|note): (.*)", line)
        if not match:
            continue
        place, column, kind, what = match.groups()
        if kind == "note":
            found[-1] = (*found[-1][:3], f"{found[-1][3]}: {what}")
        else:
            found.append((int(place or 1), int(column or 0), kind, what))
    return found


def published(tbc, texts):
    """The diagnostics that are published of each text, by its number."""
    def frame(**message):
        content = json.dumps({"jsonrpc": "2.0", **message}).encode()
        return b"Content-Length: %d\r\n\r\n" % len(content) + content
    asked = frame(id=1, method="initialize", params={})
    for number, text in enumerate(texts):
        document = {"uri": str(number), "text": text}
        asked += frame(method="textDocument/didOpen", params={"textDocument": document})
    answers = subprocess.run([tbc, "lsp"], input=asked, capture_output=True, check=False).stdout
    found = {}
    while answers:
        header, _, rest = answers.partition(b"\r\n\r\n")
        length = int(header.split(b":")[1])
        message, answers = json.loads(rest[:length]), rest[length:]
        if message.get("method") == "textDocument/publishDiagnostics":
            found[int(message["params"]["uri"])] = message["params"]["diagnostics"]
    return found


def told(text, diagnostics):
    """The diagnostics of a text as findings: line, column, kind and text, with its note."""
    lines = re.split("\r\n|\r|\n", text)
    found = []
    for it in diagnostics:
        start = it["range"]["start"]
        before = lines[start["line"]].encode("utf-16-le")[:2 * start["character"]].decode("utf-16-le")
        kind = {1: "error", 2: "warning"}[it["severity"]]
        found.append((start["line"] + 1, len(before.encode()) + 1, kind, it["message"]))
    return found


def are_same(told, wanted):
    """Whether findings are those that `tbc check` tells; it tells no column of a warning."""
    return len(told) == len(wanted) and all(
        one[0] == other[0] and other[1] in (0, one[1]) and one[2:] == other[2:] for one, other in zip(told, wanted))


def main():
    tbc = sys.argv[1]
    choices = random.Random(1)
    texts = [source(choices) for _ in range(SOURCES)]
    found, count = published(tbc, texts), 0
    for number, text in enumerate(texts):
        here, wanted = told(text, found[number]), checked(tbc, text)
        count += len(here)
        if not are_same(here, wanted):
            sys.exit(f"tbc lsp publishes {here}\ntbc check says {wanted}\nof {text!r}")
    print(f"tbc lsp publishes of {SOURCES} generated sources what tbc check says, {count} findings")


if __name__ == "__main__":
    main()
