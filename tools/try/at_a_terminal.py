#!/usr/bin/env python3
"""Plays a program at a pseudo-terminal: at_a_terminal.py PROMPT LINE .. -- COMMAND ..

Waits for each prompt before it types the line after it, so a prompt that comes only with the key that it asks for is
never seen. No LINE is the end of the input, and a line end alone is an empty line. Writes what the terminal showed,
with plain line ends, and ends with the command's status; or with 124 after some seconds without a prompt, and with 125 if
none can come any more.
"""
import os
import pty
import select
import sys

SECONDS = 20
END_OF_INPUT = b"\x04"


def shown_next(terminal):
    """What the terminal shows next, nothing if the command has ended."""
    if not select.select([terminal], [], [], SECONDS)[0]:
        sys.exit(124)
    try:
        return os.read(terminal, 4096)
    except OSError:
        return b""


def main():
    at = sys.argv.index("--")
    turns, command = sys.argv[1:at], sys.argv[at + 1:]
    child, terminal = pty.fork()
    if child == 0:
        os.execvp(command[0], command)
    shown = b""
    for prompt, line in zip(turns[::2], turns[1::2]):
        since = b""
        while not since.endswith(prompt.encode()):
            more = shown_next(terminal)
            if not more:
                sys.exit(125)
            since += more
        shown += since
        os.write(terminal, line.rstrip("\n").encode() + b"\n" if line else END_OF_INPUT)
    while more := shown_next(terminal):
        shown += more
    sys.stdout.write(shown.replace(b"\r\n", b"\n").decode())
    sys.exit(os.waitstatus_to_exitcode(os.waitpid(child, 0)[1]))


main()
