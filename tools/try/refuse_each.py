#!/usr/bin/env python3
"""Runs a program in this folder with the first, the second, .. growth of its memory refused, until a run meets no
refusal, and says how often it ran out of memory and how often it gave its answer. Ends with status 1 if a run did
neither. `tools/try/refused_growth.sh` says what counts as one.

    tools/try/refuse_each.py STRIDE PROGRAM WORD..     (STRIDE: from one growth that is refused to the next)

The folder holds `refuse.so`, which refuses, and `commands`, the program's standard input. What the program shows with
ample memory is in `shown.wanted` then, and a line with the number of runs comes to `runs`."""
import os
import sys
from collections import namedtuple
from pathlib import Path

ENDLESS = 1_000_000  # growths that no run has
OUT_OF_MEMORY = 4  # the program's status
CLOSING = b"\x1b[0m\x1b[25;1H\r\n"  # what leaves a terminal
SHOWN_BEFORE = ("play", "test", "debug", "profile", "check", "lsp", "dap")  # commands that may have shown a part of their answer

Answer = namedtuple("Answer", "status said shown made")


def made_files():
    return [it for it in Path().iterdir() if it.name == "out.prg" or it.name.startswith("beside.")]


def answer(growth, program, words):
    """What the program answers with that growth refused, with none for 0, and whether one was refused."""
    for it in made_files():
        it.unlink()
    environment = {**os.environ, "REFUSE": str(growth), "LD_PRELOAD": f"{os.getcwd()}/refuse.so"}
    new = os.O_WRONLY | os.O_CREAT | os.O_TRUNC
    files = [(0, "commands", os.O_RDONLY), (1, "shown", new), (2, "said", new), (9, "refused", new)]
    actions = [(os.POSIX_SPAWN_OPEN, *it, 0o644) for it in files]
    started = os.posix_spawn(program, [program, *words], environment, file_actions=actions)
    status = os.waitstatus_to_exitcode(os.waitpid(started, 0)[1])
    said, shown, refused = (Path(it).read_bytes() for it in ("said", "shown", "refused"))
    return Answer(status, said, shown, {it.name: it.read_bytes() for it in made_files()}), bool(refused)


def is_out_of_memory(given, wanted, name, command):
    """Whether a run said that it ran out of memory, and wrote nothing, or of several files some, each whole. A program that is
    played or debugged has warned and shown a prefix, and so has a profile if there is no memory to open its page. A check has
    told of the sources before."""
    before, _, last = given.said.removesuffix(b"\n").rpartition(b"\n")
    are_some = len(given.made) < len(wanted.made) and given.made.items() <= wanted.made.items()
    if given.status != OUT_OF_MEMORY or last != f"{name}: out of memory".encode() or given.made and not are_some:
        return False
    shown = given.shown.removesuffix(CLOSING) if "TERMINAL" in os.environ else given.shown
    if command in SHOWN_BEFORE:
        return wanted.said.startswith(before) and wanted.shown.startswith(shown)
    return not before and not shown


def main():
    stride, program, words = int(sys.argv[1]), sys.argv[2], sys.argv[3:]
    name = Path(program).name
    told = " ".join([name, *words])
    wanted, _ = answer(0, program, words)
    is_well = wanted.status != OUT_OF_MEMORY
    if not is_well:
        print(f"{told}: out of memory though no growth was refused", file=sys.stderr)
    want = again = runs = 0
    for growth in range(1, ENDLESS, stride):
        given, was_refused = answer(growth, program, words)
        runs += 1
        if given.status == OUT_OF_MEMORY and not was_refused:
            print(f"{told}: out of memory though no growth was refused", file=sys.stderr)
            is_well = False
        elif given == wanted:
            again += 1
        elif is_out_of_memory(given, wanted, name, words[0] if words else ""):
            want += 1
        else:
            said = given.said[:80].decode(errors="replace")
            print(f"{told}: another answer at growth {growth}: status {given.status}, {said}", file=sys.stderr)
            is_well = False
        if not was_refused:
            break
    Path("shown.wanted").write_bytes(wanted.shown)
    with open("runs", "a", encoding="utf-8") as it:
        print(runs, file=it)
    print(f"{told}: status {wanted.status}; {want} times out of memory, {again} times its answer")
    return not is_well


sys.exit(main())
