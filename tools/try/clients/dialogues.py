#!/usr/bin/env python3
"""Tries `tbc lsp` with its whole dialogue cut after each byte, with 2,000 changes of one text, in which its memory may not
grow, and with texts of 1,048,576 bytes, of which it publishes what `tbc check` says.

    dialogues.py TBC DIALOGUE
"""
import json
import random
import subprocess
import sys
from concurrent.futures import ThreadPoolExecutor
from pathlib import Path

import diagnostics

SHUT, NOT_SHUT, BAD_FRAME = (0, b""), (1, b""), (3, b"tbc: bad frame\n")
CHANGES = 2000
SETTLED = 200  # changes after which memory has what the largest of these texts needs
SCATTERED = 1536  # kilobytes that pieces of different sizes may leave between them; 2,000 texts that were kept are 14 MB
LARGEST = 1_048_576


def frame(content):
    return b"Content-Length: %d\r\n\r\n%s" % (len(content), content)


def message(**members):
    return frame(json.dumps({"jsonrpc": "2.0", **members}).encode())


def served(tbc, asked):
    ran = subprocess.run([tbc, "lsp"], input=asked, capture_output=True, check=False)
    return ran.stdout, (ran.returncode, ran.stderr)


def cuts(tbc, dialogue):
    """What is wrong with the answers to a dialogue that is cut after each byte."""
    contents = [line.encode() for line in Path(dialogue).read_text().splitlines()]
    asked = b"".join(map(frame, contents))
    ends, shut = [0], None  # where frames end, and from which end on the server is shut
    for content in contents:
        ends.append(ends[-1] + len(frame(content)))
        if json.loads(content).get("method") == "shutdown":
            shut = ends[-1]
    whole = {end: served(tbc, asked[:end])[0] for end in ends}

    def differs(cut):
        frames = max(end for end in ends if end <= cut)
        ended = BAD_FRAME if frames != cut else SHUT if shut <= cut else NOT_SHUT
        return served(tbc, asked[:cut]) != (whole[frames], ended)

    before = [whole[end] for end in ends]
    if not all(after.startswith(answers) for answers, after in zip(before, before[1:])):
        return "later frames change what was answered before"
    with ThreadPoolExecutor() as pool:
        bad = [cut for cut, is_bad in enumerate(pool.map(differs, range(len(asked)))) if is_bad]
    print(f"tbc lsp: {len(asked)} cuts of a dialogue of {len(contents)} messages, {len(bad)} answered in another way")
    return bad


def resident(process):
    """The kilobytes of memory that a process has."""
    status = Path(f"/proc/{process.pid}/status").read_text()
    return int(status.split("VmRSS:")[1].split()[0])


def read_frame(stream):
    length = None
    while (line := stream.readline()) not in (b"\r\n", b""):
        length = int(line.split(b":")[1])
    return json.loads(stream.read(length))


def memory(tbc):
    """Whether memory grows while a text is changed."""
    choices = random.Random(2)
    with subprocess.Popen([tbc, "lsp"], stdin=subprocess.PIPE, stdout=subprocess.PIPE) as process:
        def say(**members):
            process.stdin.write(message(**members))
            process.stdin.flush()
        say(id=1, method="initialize", params={})
        read_frame(process.stdout)
        say(method="textDocument/didOpen", params={"textDocument": {"uri": "a", "text": ""}})
        read_frame(process.stdout)
        longest = "".join(f"{n} PRINT A,B;\"VALUE\"\n" for n in range(1, 800))
        grown = []
        for version in range(CHANGES):
            # (one that the memory holds takes more to look at than a larger one)
            text = longest if version < SETTLED // 2 else longest[:choices.randrange(len(longest))]
            say(method="textDocument/didChange", params={
                "textDocument": {"uri": "a", "version": version}, "contentChanges": [{"text": text}]})
            read_frame(process.stdout)
            if version + 1 in (SETTLED, CHANGES):
                grown.append(resident(process))
        say(id=2, method="shutdown")
        read_frame(process.stdout)
        say(method="exit")
    print(f"tbc lsp: {grown[0]} KB after {SETTLED} changes of a text, {grown[1]} KB after {CHANGES}")
    return grown[1] > grown[0] + SCATTERED


def large_texts():
    """Texts of 1,048,576 bytes."""
    yield "".join(f"{n % 32767 + 1} A=A+1\n" for n in range(100_000))[:LARGEST]
    yield ("10 PRINT \"" + "A" * 200 + "\"\n") * 5000
    yield "10 PRIMT A\n" * 40_000 + "20 ?1\n" * 110_000
    yield "\n" * (LARGEST - 8) + "10 A=B%1"


def main():
    tbc, dialogue = sys.argv[1:]
    bad = cuts(tbc, dialogue)
    bad = memory(tbc) or bad
    texts = [(text + " " * LARGEST)[:LARGEST] for text in large_texts()]
    found = diagnostics.published(tbc, texts)
    count = 0
    for number, text in enumerate(texts):
        told, wanted = diagnostics.told(text, found[number]), diagnostics.checked(tbc, text)
        count += len(told)
        if not diagnostics.are_same(told, wanted):
            print(f"of large text {number} tbc lsp publishes {len(told)} findings, tbc check says {len(wanted)}")
            bad = True
    one_more = diagnostics.published(tbc, [" " * (LARGEST + 1)])[0]
    if [(it["code"], it["message"]) for it in one_more] != [("read-fault", f"more than {LARGEST} bytes")]:
        print(f"of a text of {LARGEST + 1} bytes tbc lsp publishes {one_more}")
        bad = True
    print(f"tbc lsp publishes of {len(texts)} texts of {LARGEST} bytes what tbc check says, {count} findings")
    return bool(bad)


if __name__ == "__main__":
    sys.exit(main())
