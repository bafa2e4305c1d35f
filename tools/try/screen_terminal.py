#!/usr/bin/env python3
"""Shows frames of the machine's screen in panes of tmux, and compares what stands there with the model's screen: the
characters of all rows, which cells are reversed, where the cursor is, and that nothing stands elsewhere. The frames are
those of tools/screen_model.py, which are tb_machine_screen's by the digests of tb_screen_golden. What was typed between two
frames must be gone. Needs tmux.

    tools/try/screen_terminal.py [COUNT]     COUNT frames in each of three sizes of pane, 40 if it is missing"""
import os
import re
import subprocess
import sys
import tempfile
import time
from pathlib import Path

sys.path.insert(0, str(Path(__file__).resolve().parents[1]))
sys.dont_write_bytecode = True
from screen_model import Screen, cases

SIZES = [(40, 25), (80, 25), (100, 40)]
TYPED = "typed at the end of a row, and on and on, so that it wraps there\r\n"
STYLE = re.compile(r"\x1b\[([0-9;]*)m")


def tmux(socket, *words):
    return subprocess.run(["tmux", "-u", "-S", socket, *words], check=True, capture_output=True, text=True).stdout


def reversed_cells(line, reverse):
    """The characters of a captured line, each with whether it is reversed, and whether those of the next line are."""
    cells, at = [], 0
    for style in STYLE.finditer(line):
        cells += [(sign, reverse) for sign in line[at:style.start()]]
        at = style.end()
        words = style[1].split(";") if style[1] else ["0"]
        while words:
            word = words.pop(0)
            if word in ("38", "48"):
                del words[:2]
            elif word in ("0", "27", "7"):
                reverse = word == "7"
    return cells + [(sign, reverse) for sign in line[at:]], reverse


def shown(socket, width, height):
    """What a pane shows, row by row, filled up with blanks."""
    blank, rows, reverse = [(" ", False)] * width, [], False
    for line in tmux(socket, "capture-pane", "-p", "-e", "-N", "-t", "0").split("\n")[:height]:
        cells, reverse = reversed_cells(line, reverse)
        rows.append((cells + blank)[:width])
    return rows


def wanted(screen, width, height):
    blank = [(" ", False)] * width
    rows = [[(screen.sign(code), code >= 128) for code in row] + blank[40:] for row in screen.codes]
    return rows + [blank] * (height - 25)


def compare(socket, pane, screen, size):
    mark = f"\x1b]2;{time.monotonic_ns()}\x07"  # the pane's title tells when all was taken
    with open(pane, "w", encoding="utf-8") as out:
        out.write(TYPED + screen.frame() + mark)
    for _ in range(200):
        if tmux(socket, "display-message", "-p", "-t", "0", "#{pane_title}").strip() == mark[4:-1]:
            break
        time.sleep(0.01)
    place = tmux(socket, "display-message", "-p", "-t", "0", "#{cursor_y} #{cursor_x}").split()
    found = shown(socket, *size)
    if tuple(map(int, place)) != screen.cursor() or found != wanted(screen, *size):
        sys.exit(f"screen_terminal: a pane of {size[0]} by {size[1]} shows another screen than the model's")


def main():
    count = int(sys.argv[1]) if sys.argv[1:] else 40
    sent = list(cases())
    some = sent[:: max(1, len(sent) // count)][:count]
    with tempfile.TemporaryDirectory() as folder:
        for width, height in SIZES:
            socket = str(Path(folder) / f"tmux{width}")
            environment = ["-x", str(width), "-y", str(height)]
            tmux(socket, "-f", os.devnull, "new-session", "-d", *environment, "stty -echo; exec sleep 600")
            tmux(socket, "set", "-g", "status", "off")
            tmux(socket, "resize-window", "-x", str(width), "-y", str(height))
            time.sleep(0.3)
            pane = tmux(socket, "display-message", "-p", "-t", "0", "#{pane_tty}").strip()
            for case in some:
                screen = Screen()
                for byte in case:
                    screen.printed(byte)
                compare(socket, pane, screen, (width, height))
            tmux(socket, "kill-server")
            print(f"{len(some)} frames at {width} by {height}")


if __name__ == "__main__":
    main()
