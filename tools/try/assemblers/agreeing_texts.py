"""500 texts for `tbc asm`, for `assemble_command.sh`: FOLDER. Writes each as NAME.asm for `tbc asm`, and as NAME.s for `tbc
assemble`, and prints their names and the addresses that they are for. NAME.s is the same text, but for what docs/ASSEMBLY.md
marks: where an address of two bytes may be below 256, `a:` stands before it, in every second text. In the others there is none."""
import random
import sys
from pathlib import Path

from common_texts import IMPLIED, MODES

TEXTS = 500
SPACES = ["", " ", "  "]


class Text:
    """A random text: its lines, in both spellings."""

    def __init__(self, number):
        self.chance = random.Random(number)
        self.is_low = number % 2 == 0  # it may lie below 256, and have such addresses
        self.at = self.chance.choice([0, 2, 0x80, 0xC000] if self.is_low else [0x0100, 0x0801, 0xC000])
        self.labels = [f"L{i}{self.chance.choice(['', '_', 'x', '_9'])}" for i in range(8)] + ["LDA", "X", "byte"]

    def cased(self, word):
        return self.chance.choice([word.upper(), word.lower(), word])

    def space(self):
        return self.chance.choice(SPACES)

    def hexadecimal(self, digits, most, least=0):
        return "$" + self.cased(f"{self.chance.randint(least, most):0{digits}X}")

    def byte(self):
        return self.hexadecimal(2, 0xFF)

    def address(self):
        """An address of two bytes."""
        if self.chance.random() < 0.4:
            return self.cased(self.chance.choice(self.labels))
        return self.hexadecimal(4, 0xFFFF, 0 if self.is_low else 0x100)

    def operand(self, mode):
        """An operand, and what may stand before it."""
        indexed = f"{self.space()},{self.space()}"
        word = "a:" if self.is_low else ""
        x, y = self.cased("X"), self.cased("Y")
        label = self.cased(self.chance.choice(self.labels))
        return {
            "imm": ("", self.chance.choice([f"#{self.byte()}", f"#<{label}", f"#>{label}"])),
            "zp": ("", self.byte()),
            "zpx": ("", f"{self.byte()}{indexed}{x}"),
            "zpy": ("", f"{self.byte()}{indexed}{y}"),
            "abs": (word, self.address()),
            "absx": (word, f"{self.address()}{indexed}{x}"),
            "absy": (word, f"{self.address()}{indexed}{y}"),
            "indx": ("", f"({self.space()}{self.byte()}{indexed}{x}{self.space()})"),
            "indy": ("", f"({self.byte()}{self.space()}){indexed}{y}"),
            "ind": ("", f"({self.cased(self.chance.choice(self.labels))})"),
            "acc": ("", self.cased("A")),
        }[mode]

    def instruction(self):
        """The two spellings of an instruction."""
        if self.chance.random() < 0.25:
            return (self.cased(self.chance.choice(IMPLIED.split())),) * 2
        words, modes = self.chance.choice(MODES.splitlines()).split(": ")
        mnemonic = self.chance.choice(words.split())
        mode = self.chance.choice(modes.split())
        if mode == "rel":
            return (f"{self.cased(mnemonic)} {self.cased(self.near)}",) * 2
        before, operand = self.operand(mode)
        before = "" if mnemonic in ("jmp", "jsr") else before
        mnemonic = self.cased(mnemonic)
        return f"{mnemonic} {operand}", f"{mnemonic} {before}{operand}"

    def item(self):
        """The two spellings of an item."""
        which = self.chance.random()
        if which < 0.12:
            comma = f"{self.space()},{self.space()}"
            return (f"{self.cased('.byte')} {comma.join(self.byte() for _ in range(self.chance.randint(1, 9)))}",) * 2
        if which < 0.2:
            value = self.chance.choice([self.hexadecimal(4, 0xFFFF), self.cased(self.chance.choice(self.labels))])
            return (f"{self.cased('.word')} {value}",) * 2
        return self.instruction()

    def line(self, label):
        """The two spellings of a line."""
        plain, other = self.item() if label is None or self.chance.random() < 0.8 else ("", "")
        front = self.space() + (f"{self.cased(label)}{self.space()}:{self.space()}" if label else "")
        behind = self.space() + self.chance.choice(["", "", "; a comment: \"'$", ";"])
        return front + plain + behind, front + other + behind

    def lines(self):
        """The two spellings of all lines. A branch leads to the last label or the next one: both are near."""
        for number, label in enumerate(self.labels):
            self.near = label
            yield self.line(label)
            for _ in range(self.chance.randint(0, 6)):
                self.near = self.chance.choice(self.labels[number:number + 2])
                yield self.line(None)
            if self.chance.random() < 0.2:
                yield self.chance.choice([("", ""), ("  ; alone", "  ; alone")])


def main(folder):
    for number in range(TEXTS):
        text = Text(number)
        plain, other = zip(*text.lines())
        end = text.chance.choice(["\n", "\r\n"])
        (folder / f"{number}.asm").write_bytes((end.join(plain) + end).encode())
        (folder / f"{number}.s").write_bytes((end.join(other) + end).encode())
        print(f"{number} {text.at:04X}")


main(Path(sys.argv[1]))
