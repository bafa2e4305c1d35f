#!/usr/bin/env python3
"""Plays programs on the machine's screen: `tbc play --screen`. Needs tmux.

At pseudo-terminals what is written is compared with the frames of tools/screen_model.py: the model prints what `tbc play`
sends up to each wait, and what is typed there. Small terminals are refused, by the program if COLUMNS and LINES tell their
size, and by ./tbc, which asks for it; so is a file. In panes of tmux a person plays: before each line the pane shows the
model's screen, also after its size changed; Ctrl-D ends a game, and so does Ctrl-C, after which ./tbc gives the pane its
own colours again.

    tools/try/screen_play.py [TBC]     TBC is the built program if it is missing"""
import fcntl
import os
import pty
import struct
import subprocess
import sys
import tempfile
import termios
import time
from pathlib import Path

sys.path.insert(0, str(Path(__file__).resolve().parents[1]))
sys.dont_write_bytecode = True
from built_copy import PROGRAM, ROOT, built_copy
from screen_model import Screen
from screen_terminal import STYLE, shown, tmux
from screen_terminal import wanted as cells_of

CLOSING = "\x1b[0m\x1b[25;1H\r\n"
SMALL = "tbc: terminal smaller than 40 by 25\n"
LIMIT = ["--limit", "20000"]

# At $C000: sends the bytes after it up to a 0, and then each byte that it takes.
ECHO = bytes.fromhex("00c0a200bd17c0f00720d2ffe84c02c020cfff20d2ff4c0ec0")
COLOURS = b"\x93\x1cRED\r\x12\x9eYELLOW\x92\r\x11\x1d\x05WHITE\r\x0e\xc1a\x8e\r\x9a" + b"X" * 79 + b"\x13\x1e?"
ASKED = '10 PRINT "A"\n20 INPUT A,B\n30 PRINT "B",A,B\n40 IF A<30 GOTO 10\n50 END\n'

# Programs with what is typed: an example, a source or a PRG file, and lines.
GAMES = [
    ((ROOT / "examples/hello.bas").read_bytes(), []),
    ((ROOT / "examples/guess.bas").read_bytes(), ["50", "25", "12"]),
    ((ROOT / "examples/cave.bas").read_bytes(), ["1", "2", "1", "1", "2", "2", "1"]),
    (ASKED.encode(), ["1,2", "3", "4", '5"', "6,7", "29,0"]),
    (ASKED.encode(), ["1," + " " * 100 + "7", "30,1"]),
    (b'10 PRINT "' + b"X" * 90 + b'"\n20 GOTO 10\n', []),
    ((ROOT / "examples/colour/guess.bas").read_bytes(), ["50", "10", "23"]),
    ((ROOT / "examples/colour/times.bas").read_bytes(), []),
    (ECHO + COLOURS + b"\0", ["a line", "", "x" * 90]),
]


def words_of(program):
    if program.startswith(b"\x00"):
        return ["--prg"]
    return ["--petscii"] if b"{" in program else []


def play(tbc, file, words, lines):
    """What is sent up to the wait after these lines, and whether the program waits there."""
    done = subprocess.run([tbc, "play", *LIMIT, *words, file], input="".join(line + "\n" for line in lines).encode(),
                          capture_output=True, check=False)
    return bytes_of(done.stdout), done.returncode == 6


def bytes_of(host_form):
    sent, at = [], 0
    while at < len(host_form):
        if host_form[at] == ord("{"):
            sent.append(int(host_form[at + 1:at + 3], 16))
            at += 4
        else:
            sent.append(13 if host_form[at] == 10 else host_form[at])
            at += 1
    return sent


def screens(tbc, file, words, lines):
    """Prints on one screen what comes up to each wait, and up to the end; each time the screen is yielded."""
    screen, before = Screen(), 0
    for count in range(len(lines) + 1):
        sent, waits = play(tbc, file, words, lines[:count])
        for byte in sent[before:]:
            screen.printed(byte)
        before = len(sent)
        yield screen
        if not waits:
            return
        for byte in (lines[count] if count < len(lines) else "").upper().encode():
            screen.printed(byte)


def at_terminal(command, size, typed, environment):
    """What a command writes at a terminal of this size, that echoes nothing; what it says of errors, and its status."""
    ours, theirs = pty.openpty()
    columns, rows = size
    fcntl.ioctl(theirs, termios.TIOCSWINSZ, struct.pack("HHHH", rows, columns, 0, 0))
    modes = termios.tcgetattr(theirs)
    modes[1] &= ~termios.OPOST
    modes[3] &= ~termios.ECHO
    termios.tcsetattr(theirs, termios.TCSANOW, modes)
    plain = {name: value for name, value in os.environ.items() if name not in ("COLUMNS", "LINES")}
    child = subprocess.Popen(command, stdin=theirs, stdout=theirs, stderr=subprocess.PIPE, env=plain | environment)
    os.close(theirs)
    os.write(ours, "".join(line + "\n" for line in typed).encode() + b"\x04")
    written = b""
    while True:
        try:
            more = os.read(ours, 65536)
        except OSError:
            break
        if not more:
            break
        written += more
    said = child.stderr.read().decode()
    os.close(ours)
    return written.decode(), said, child.wait()


def fail(text):
    sys.exit(f"screen_play: {text}")


def compare_written(tbc, script, folder):
    """Each game at three terminals."""
    played = 0
    for program, lines in GAMES:
        file, words = str(folder / "program"), words_of(program)
        Path(file).write_bytes(program)
        frames = "".join(screen.frame() for screen in screens(tbc, file, words, lines)) + CLOSING
        told = {"COLUMNS": "80", "LINES": "25"}
        for command, size, environment in [(tbc, (40, 25), {}), (script, (100, 30), {}), (tbc, (80, 25), told)]:
            written, said, status = at_terminal([command, "play", "--screen", *LIMIT, *words, file], size, lines, environment)
            if written != frames or status not in (0, 5, 6):
                fail(f"{program[:40]!r} writes {written[:200]!r}, not {frames[:200]!r}; {said} {status}")
            played += 1
    return played


def compare_refused(tbc, script, source):
    """Terminals that are too small, and standard output that is none."""
    small = [(script, (39, 25), {}), (script, (40, 24), {"LINES": "99"}),
             (tbc, (80, 25), {"COLUMNS": "39"}), (tbc, (80, 25), {"LINES": "24", "COLUMNS": "x"})]
    for command, size, told in small:
        if at_terminal([command, "play", "--screen", source], size, [], told) != ("", SMALL, 2):
            fail(f"{command} {size} {told} is not refused")
    for command in (tbc, script):
        done = subprocess.run([command, "play", "--screen", source], stdin=subprocess.DEVNULL, capture_output=True, check=False)
        if (done.stdout, done.stderr, done.returncode) != (b"", b"tbc: not a terminal\n", 2):
            fail(f"{command} writes a screen to a file")
    return len(small) + 2


def plain_text(captured):
    """What of a captured pane has the pane's own colours."""
    plain, own, at = "", {"38": True, "48": True}, 0
    for style in [*STYLE.finditer(captured), None]:
        if all(own.values()):
            plain += captured[at:style.start() if style else None]
        if style:
            at = style.end()
            words = style[1].split(";") if style[1] else ["0"]
            while words:
                word = words.pop(0)
                if word in own:
                    own[word] = False
                    del words[:2]
                elif word in ("39", "49"):
                    own[word[:1] + "8"] = True
                elif word == "0":
                    own = {"38": True, "48": True}
    return plain


class Pane:
    """A pane of tmux where a command runs; afterwards it says the status, and stays."""

    def __init__(self, socket, size, command):
        self.socket, self.size = str(socket), size
        line = f"trap : INT; {command}; echo \"ended $?\"; exec sleep 600"
        self.tmux("-f", os.devnull, "new-session", "-d", "-x", str(size[0]), "-y", str(size[1]), "sleep 1; exec sh -c '" + line + "'")
        self.tmux("set", "-g", "status", "off")
        self.resize(size)

    def tmux(self, *words):
        return tmux(self.socket, *words)

    def resize(self, size):
        self.tmux("resize-window", "-x", str(size[0]), "-y", str(size[1]))
        self.size = size

    def types(self, text, *keys):
        if text:
            self.tmux("send-keys", "-t", "0", "-l", text)
        if keys:
            self.tmux("send-keys", "-t", "0", *keys)

    def wait_for(self, what, is_so):
        for _ in range(600):
            if is_so():
                return
            time.sleep(0.02)
        fail(f"a pane of {self.size} does not show {what}: {self.tmux('capture-pane', '-p', '-t', '0')}")

    def shows(self, screen):
        place = self.tmux("display-message", "-p", "-t", "0", "#{cursor_y} #{cursor_x}").split()
        return tuple(map(int, place)) == screen.cursor() and shown(self.socket, *self.size) == cells_of(screen, *self.size)

    def ended(self, status):
        """Whether the command ended so, in the pane's own colours."""
        return f"ended {status}" in plain_text(self.tmux("capture-pane", "-p", "-e", "-N", "-t", "0"))

    def close(self):
        self.tmux("kill-server")


def play_in_pane(tbc, script, folder):
    """A game in a pane whose size changes, to its end by Ctrl-D, and one that Ctrl-C ends."""
    program, lines = GAMES[2]
    file = folder / "cave.bas"
    file.write_bytes(program)
    sizes = [(40, 25), (70, 30), (41, 40), (100, 26)]
    pane = Pane(folder / "tmux1", sizes[0], f"{tbc} play --screen {file}")
    frames = 0
    for count, screen in enumerate(screens(tbc, str(file), [], lines)):
        pane.wait_for("the model's screen", lambda: pane.shows(screen))
        frames += 1
        if count < len(lines):
            pane.resize(sizes[(count + 1) % len(sizes)])
            pane.types(lines[count], "Enter")
    pane.types("", "C-d")
    pane.wait_for("its end", lambda: pane.ended(6) or pane.ended(0))
    pane.close()
    pane = Pane(folder / "tmux2", (80, 25), f"{script} play --screen {file}")
    first = next(screens(tbc, str(file), [], []))
    pane.wait_for("the first screen", lambda: pane.shows(first))
    pane.types("12", "C-c")
    pane.wait_for("its own colours after Ctrl-C", lambda: pane.ended(130))
    pane.close()
    return frames + 1


def main():
    tbc = sys.argv[1] if sys.argv[1:] else str(PROGRAM)
    with tempfile.TemporaryDirectory() as name:
        folder = Path(name)
        (folder / "copy").mkdir()
        script = str(built_copy(folder / "copy") / "tbc")
        source = folder / "hello.bas"
        source.write_bytes(GAMES[0][0])
        played = compare_written(tbc, script, folder)
        refused = compare_refused(tbc, script, str(source))
        frames = play_in_pane(tbc, script, folder)
    print(f"{played} games played on the screen, {refused} calls refused, {frames} frames in panes")


if __name__ == "__main__":
    main()
