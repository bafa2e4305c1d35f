#!/usr/bin/env python3
"""A model of the Commodore 64's screen that knows nothing of tb_machine_screen: it keeps the variables that the
KERNAL's editor keeps, as the commented listings of its ROM name them, and moves as its routines do. Frames are made
from it by a table of its own.

    tools/screen_model.py --write    writes the bytes and the wanted answers of trials/tb_screen_golden
    tools/screen_model.py --check    compares these with the stored ones"""
import hashlib
import random
import sys
from pathlib import Path

GOLDEN = Path(__file__).resolve().parent.parent / "trials/tb_screen_golden"

# The ROM's table of colour bytes, in the order of the colours.
COLOURS = [0x90, 0x05, 0x1C, 0x9F, 0x9C, 0x1E, 0x1F, 0x9E, 0x81, 0x95, 0x96, 0x97, 0x98, 0x99, 0x9A, 0x9B]
TERMINAL_COLOURS = [16, 231, 88, 116, 96, 71, 19, 227, 94, 58, 167, 239, 243, 157, 63, 249]
SIGNS = ("@ABCDEFGHIJKLMNOPQRSTUVWXYZ[£]↑← !\"#$%&'()*+,-./0123456789:;<=>?"
         "─♠│──▔─││╮╰╯⌞╲╱⌜⌝●_♥▏╭╳○♣▕♦┼░│π◥ ▌▄▔▁▏▒▕░◤▕├▗└┐▂┌┴┬┤▎▍▐▔▀▃⌟▖▝┘▘▚")
LETTERS = {94: "▒", 95: "▧", 105: "▨", 122: "✓"}


class Screen:
    def __init__(self):
        self.color, self.rvs, self.qtsw, self.insrt, self.lower = 14, 0, 0, 0, False
        self.clear()

    def clear(self):
        self.codes = [[32] * 40 for _ in range(25)]
        self.colors = [[self.color] * 40 for _ in range(25)]
        self.starts = [True] * 26
        self.home()

    def home(self):
        self.pntr = self.tblx = 0

    def first(self):
        """The row where the cursor's logical line starts; PNTR counts from there."""
        row = self.tblx
        while not self.starts[row]:
            row -= 1
        return row

    def lnmx(self):
        row = self.first()
        return 79 if row < 24 and not self.starts[row + 1] else 39

    def cell(self, column):
        row = self.first()
        return row + column // 40, column % 40

    def get(self, column):
        row, column = self.cell(column)
        return self.codes[row][column], self.colors[row][column]

    def set(self, column, cell):
        row, column = self.cell(column)
        self.codes[row][column], self.colors[row][column] = cell

    def stupt(self, column):
        """PNTR for a column of the row TBLX."""
        self.pntr = column if self.starts[self.tblx] else column + 40

    def scrol(self):
        while True:
            self.tblx -= 1
            del self.codes[0], self.colors[0], self.starts[0]
            self.codes.append([32] * 40)
            self.colors.append([self.color] * 40)
            self.starts.insert(24, True)
            if self.starts[0]:
                break
        self.tblx += 1

    def nxln(self):
        row = self.tblx
        while True:
            row += 1
            if row == 25:
                self.scrol()
                row = self.tblx
            if self.starts[row]:
                break
        self.tblx = row

    def newlin(self):
        """Gives the line of one row that ends in the row TBLX a second row."""
        if self.tblx == 24:
            self.scrol()
            self.tblx -= 1
        below = self.tblx + 1
        self.codes.insert(below, [32] * 40)
        self.colors.insert(below, [self.color] * 40)
        self.starts.insert(below, False)
        del self.codes[25], self.colors[25], self.starts[25]
        self.starts[25:] = [True]

    def wlogic(self):
        if self.pntr == self.lnmx():
            if self.pntr == 79:
                self.nxln()
                self.pntr = 0
                return
            self.newlin()
        self.pntr += 1
        if self.pntr == 40:
            self.tblx += 1

    def display(self, code):
        if self.insrt:
            self.insrt -= 1
        self.set(self.pntr, (code, self.color))
        self.wlogic()

    def back(self):
        """One place to the left; whether there is one."""
        if self.pntr == 40:
            self.tblx -= 1
        if self.pntr:
            self.pntr -= 1
            return True
        if self.tblx == 0:
            return False
        self.tblx -= 1
        self.stupt(39)
        return True

    def delete(self):
        if not self.back():
            return
        for column in range(self.pntr, self.lnmx()):
            self.set(column, self.get(column + 1))
        self.set(self.lnmx(), (32, self.color))

    def insert(self):
        if self.get(self.lnmx())[0] != 32 or self.lnmx() == self.pntr:
            if self.lnmx() == 79:
                return
            self.newlin()
        for column in range(self.lnmx(), self.pntr, -1):
            self.set(column, self.get(column - 1))
        self.set(self.pntr, (32, self.color))
        self.insrt = (self.insrt + 1) & 255

    def down(self):
        if self.pntr + 40 <= self.lnmx():
            self.pntr += 40
            self.tblx += 1
        else:
            self.pntr %= 40
            self.nxln()

    def right(self):
        if self.pntr < self.lnmx():
            self.pntr += 1
            if self.pntr == 40:
                self.tblx += 1
        else:
            self.nxln()
            self.pntr = 0

    def up(self):
        if self.tblx:
            column = self.pntr % 40
            self.tblx -= 1
            self.stupt(column)

    def ret(self):
        self.insrt = self.rvs = self.qtsw = self.pntr = 0
        self.nxln()

    def printed(self, byte):
        self.low(byte) if byte < 128 else self.high(byte)
        if self.insrt:
            self.qtsw = 0

    def low(self, byte):
        if byte == 13:
            self.ret()
        elif byte >= 32:
            code = byte & 0xDF if byte >= 0x60 else byte & 0x3F
            if code == 0x22:
                self.qtsw ^= 1
            self.display(code | 0x80 if self.rvs else code)
        elif self.insrt or self.qtsw and byte != 20:
            self.display(byte | 0x80)
        elif byte == 20:
            self.delete()
        elif byte == 18:
            self.rvs = 1
        elif byte == 19:
            self.home()
        elif byte == 29:
            self.right()
        elif byte == 17:
            self.down()
        elif byte == 14:
            self.lower = True
        elif byte in COLOURS:
            self.color = COLOURS.index(byte)

    def high(self, byte):
        low = byte & 0x7F
        if low == 0x7F:
            low = 0x5E
        if low >= 0x20:
            self.display(low | 0x40 | (0x80 if self.rvs else 0) if low != 0x5E else 0x5E | (0x80 if self.rvs else 0))
        elif byte == 141:
            self.ret()
        elif self.qtsw or self.insrt and byte != 148:
            self.display(low | 0xC0)
        elif byte == 148:
            self.insert()
        elif byte == 145:
            self.up()
        elif byte == 146:
            self.rvs = 0
        elif byte == 157:
            self.back()
        elif byte == 147:
            self.clear()
        elif byte == 142:
            self.lower = False
        elif byte in COLOURS:
            self.color = COLOURS.index(byte)

    def sign(self, code):
        code &= 0x7F
        if self.lower:
            if 1 <= code <= 26:
                return chr(96 + code)
            if 65 <= code <= 90:
                return chr(code)
            return LETTERS.get(code, SIGNS[code])
        return SIGNS[code]

    def cursor(self):
        return self.tblx, self.pntr % 40

    def frame(self):
        """The text that shows the screen at a terminal."""
        def pen(color, reverse):
            return f"\x1b[0;38;5;{TERMINAL_COLOURS[color]};48;5;{TERMINAL_COLOURS[6]}{';7' if reverse else ''}m"
        out = ["\x1b[0m\x1b[2J"]
        for row in range(25):
            used = pen(14, False)
            out.append(f"\x1b[{row + 1};1H{used}")
            for code, color in zip(self.codes[row], self.colors[row]):
                wanted = pen(color, code >= 128)
                if wanted != used:
                    out.append(wanted)
                    used = wanted
                out.append(self.sign(code))
        row, column = self.cursor()
        out.append(f"\x1b[{row + 1};{column + 1}H{pen(self.color, self.rvs)}")
        return "".join(out)


def cases():
    """Bytes for the screen: each byte by itself in three places, then mixtures that wrap, scroll and edit."""
    pick = random.Random(64)
    for byte in range(256):
        yield bytes([65, byte, 66])
        yield b"\x0d" * 24 + b"X" * 39 + bytes([byte, 67])
        yield b'"' + bytes([byte, 68, 148, 148, byte, byte])
    moves = bytes([17, 145, 29, 157, 19, 147, 20, 148, 13, 141, 34, 18, 146, 14, 142, 8, 9]) + bytes(COLOURS)
    for length in (30, 100, 300, 1200, 3000):
        for weight in range(1, 13):
            yield bytes(pick.choice(moves) if pick.random() < weight / 20 else pick.randrange(256) for _ in range(length))
    for _ in range(40):
        few = [pick.choice(b"\x11\x91\x1d\x9d\x14\x94\x94\x0d\x13") for _ in range(4)]
        yield bytes(pick.choice(few) if pick.random() < 0.2 else pick.randrange(32, 127) for _ in range(1500))


def answer(sent):
    screen = Screen()
    for byte in sent:
        screen.printed(byte)
    row, column = screen.cursor()
    return f"{row} {column} {hashlib.md5(screen.frame().encode()).hexdigest()}\n"


def main():
    sent = list(cases())
    files = {"stdin": "".join(f"{case.hex()}\n" for case in sent), "stdout": "".join(map(answer, sent))}
    for name, text in files.items():
        if sys.argv[1:] == ["--write"]:
            (GOLDEN / name).write_text(text)
        elif sys.argv[1:] == ["--check"]:
            if (GOLDEN / name).read_text() != text:
                sys.exit(f"screen_model: {name} of tb_screen_golden is not what the model says")
        else:
            sys.exit(__doc__)


if __name__ == "__main__":
    main()
