#!/usr/bin/env python3
"""Plays a program by `tbc play --screen` at a pseudo-terminal, and writes what each frame shows as JSON: frames.py TBC
WORD.. FILE, with the lines that are typed on standard input.

A frame is 25 rows, each an array of 40 cells; a cell is its character, its colour from 0 to 15, and whether it is
reversed."""
import json
import re
import sys
from pathlib import Path

sys.path[:0] = [str(Path(__file__).resolve().parents[k]) for k in (1, 2)]
sys.dont_write_bytecode = True
from screen_model import TERMINAL_COLOURS
from screen_play import at_terminal

SIZE = (40, 25)
CLEAR = "\x1b[0m\x1b[2J"
PART = re.compile(r"\x1b\[(\d+);1H|\x1b\[0;38;5;(\d+);48;5;19(;7)?m|(\x1b.*)|(.)", re.S)


def cells(frame):
    rows, pen = [], None
    for row, colour, reverse, rest, sign in PART.findall(frame):
        if rest or row and len(rows) == SIZE[1]:  # the cursor's place
            break
        if row:
            rows.append([])
        elif colour:
            pen = (TERMINAL_COLOURS.index(int(colour)), bool(reverse))
        else:
            rows[-1].append((sign, *pen))
    return rows


def main(tbc, *words):
    typed = sys.stdin.read().splitlines()
    told = {"COLUMNS": "40", "LINES": "25"}
    written, said, status = at_terminal([tbc, "play", "--screen", *words], SIZE, typed, told)
    if status not in (0, 5, 6):
        sys.exit(f"frames: status {status}, {said}")
    print(json.dumps([cells(frame) for frame in written.split(CLEAR)[1:]]))


if __name__ == "__main__":
    main(*sys.argv[1:])
