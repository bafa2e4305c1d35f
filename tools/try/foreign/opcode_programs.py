#!/usr/bin/env python3
"""Tries every documented opcode here, in sim65 and in VICE: opcode_programs.py TBC DRIVER SIM65 VICE

TBC is the program `tbc`, DRIVER, SIM65 and VICE are what `tbc asm` made of opcodes.asm at $080D, sim65.asm and kernal.asm;
VICE is `-` where x64sc is not there. An instruction is done with operand bytes, registers and a byte of memory at the edges,
0, 1, 127, 128 and 255, in every mode, and with both settings of each flag: with all 64 of them where it takes a value. What
it leaves, A, X, Y, P, S, a byte of memory and whether it jumped, must be the same on all machines. What is left out, since it
is known to differ or is refused here, is in DIFFERENCES. Each opcode that differs is named, with what differs first.
"""
import os
import subprocess
import sys
import tempfile

import foreign_run

EDGES = (0, 1, 127, 128, 255)
DECIMALS = (0x00, 0x01, 0x49, 0x50, 0x99)
N, V, D, I, Z, C = 0x80, 0x40, 0x08, 0x04, 0x02, 0x01
START, REGION_END = 0x080D, 0x7E00
PLACE, LEADS = 0xC800, 0xC840
DATUM = 0xC2A0
USUAL_S = 0xB0  # far below the returns of the machines
RESULT = 7  # bytes that are sent of each
MOST_SENT = 65000
BASIC = bytes.fromhex("01080b080a009e32303631000000")
WHOLE = 0xFF

# What is told besides the counts: what is left out, and of what the machines are known to differ, with what the manual says.
DIFFERENCES = """\
What is left out, and why (the manual: MCS6500 Programming Manual):
  BRK: the machine stops there. The manual: "The break command causes the microprocessor to go through an interrupt sequence
    under program control"; what that does is the ROM's.
  data at $0000, $0001, $A000 to $BFFF, and from $D000 on: refused here (closed), since there they are the ROM's and the chips'.
  decimal operands that aren't decimal: refused here; the manual does not say what they make.
  ROL abs,X in sim65, which takes it for two bytes. The manual's table: ROL absolute,X, 3E, 3 bytes.
  an index that leads past $FFFF in sim65, which reads behind its memory. The manual's address bus has 16 lines, so a carry out
    of the high byte is lost.
  SBC with D set in sim65. The manual: "The carry flag is set if the result is greater than or equal to 0", decimal or not.
  N and V of ADC with D set, and in sim65 Z: here they are those of the binary sum (MACHINE.md calls that its own choice). The
    manual: "The negative flag is set if the accumulator result contains bit 7 on"; VICE's processor takes N and V from a sum
    of which only the low digit is adjusted.
"""

MODES = {  # the documented opcodes by mnemonic and mode, but for those that lead elsewhere and those without an operand
    "imm": "ADC 69 AND 29 CMP C9 EOR 49 LDA A9 ORA 09 SBC E9 LDX A2 LDY A0 CPX E0 CPY C0",
    "zp": "ADC 65 AND 25 CMP C5 EOR 45 LDA A5 ORA 05 SBC E5 STA 85 ASL 06 LSR 46 ROL 26 ROR 66 INC E6 DEC C6 LDX A6 LDY A4"
          " STX 86 STY 84 CPX E4 CPY C4 BIT 24",
    "zp,X": "ADC 75 AND 35 CMP D5 EOR 55 LDA B5 ORA 15 SBC F5 STA 95 ASL 16 LSR 56 ROL 36 ROR 76 INC F6 DEC D6 LDY B4 STY 94",
    "zp,Y": "LDX B6 STX 96",
    "abs": "ADC 6D AND 2D CMP CD EOR 4D LDA AD ORA 0D SBC ED STA 8D ASL 0E LSR 4E ROL 2E ROR 6E INC EE DEC CE LDX AE LDY AC"
           " STX 8E STY 8C CPX EC CPY CC BIT 2C",
    "abs,X": "ADC 7D AND 3D CMP DD EOR 5D LDA BD ORA 1D SBC FD STA 9D ASL 1E LSR 5E ROL 3E ROR 7E INC FE DEC DE LDY BC",
    "abs,Y": "ADC 79 AND 39 CMP D9 EOR 59 LDA B9 ORA 19 SBC F9 STA 99 LDX BE",
    "(zp,X)": "ADC 61 AND 21 CMP C1 EOR 41 LDA A1 ORA 01 SBC E1 STA 81",
    "(zp),Y": "ADC 71 AND 31 CMP D1 EOR 51 LDA B1 ORA 11 SBC F1 STA 91",
    "": "ASL 0A LSR 4A ROL 2A ROR 6A NOP EA CLC 18 SEC 38 CLI 58 SEI 78 CLV B8 CLD D8 SED F8 TAX AA TXA 8A TAY A8 TYA 98 TSX BA"
        " INX E8 DEX CA INY C8 DEY 88",
    "stack": "PHP 08 PLP 28 PHA 48 PLA 68 TXS 9A",
    "leads": "BPL 10 BMI 30 BVC 50 BVS 70 BCC 90 BCS B0 BNE D0 BEQ F0 JMP 4C JMP() 6C JSR 20 RTS 60 RTI 40",
}
BRANCHES = "BPL BMI BVC BVS BCC BCS BNE BEQ".split()

# The lists of flags: all, those with D clear, those with D set, and two with I set, so that no interrupt comes.
ALL = tuple(bits & 0xC0 | (bits & 0x0F) for bits in (((k & 0x30) << 2) | (k & 0x0F) for k in range(64)))
LISTS = {"all": ALL, "binary": tuple(p for p in ALL if not p & D), "decimal": tuple(p for p in ALL if p & D),
         "still": (I, N | V | D | I | Z | C), "binary still": (I, N | V | I | Z | C)}
VALUES = {"edges": EDGES, "decimals": DECIMALS}
SIZE = 20


def word(value):
    return bytes((value & 0xFF, value >> 8))


def is_open(address):
    return 0x0002 <= address < 0xA000 or 0xC000 <= address < 0xD000


def is_free(address):
    """Whether a datum may lie there: it is open, and not this program's own."""
    in_driver = START <= address < REGION_END or 0xC100 <= address < 0xC140 or 0xC780 <= address < 0xC890
    return is_open(address) and not in_driver and not 0x0190 <= address < 0x0200


class Case:
    """An instruction, what it is done on, and what it needs."""

    def __init__(self, code, x=0, y=0, s=USUAL_S, flags="all", values="edges", mask=WHOLE, pokes=(), only_vice=False):
        self.code = bytes(code) + b"\xea" * (3 - len(code))
        self.x, self.y, self.s, self.flags, self.values, self.mask = x, y, s, flags, values, mask
        self.pokes = tuple(pokes) + ((0xC2F0, 0xEA),) * (3 - len(pokes))
        self.only_vice = only_vice

    def results(self):
        return len(LISTS[self.flags]) * len(VALUES[self.values])

    def record(self, places):
        pokes = b"".join(word(address) + bytes((value,)) for address, value in self.pokes)
        return (self.code + bytes((self.x, self.y, self.s)) + word(places[self.flags]) + word(places[self.values])
                + bytes((self.mask,)) + pokes)


def operands(mode):
    """The operand bytes of a mode at the edges, with X, Y, the datum's address, the pokes of a pointer, and whether past $FFFF."""
    if mode == "zp":
        return [((place,), 0, 0, place, (), False) for place in (2, 127, 128, 255)]
    if mode in ("zp,X", "zp,Y"):
        both = [(place, index, (place + index) % 256) for place in EDGES for index in EDGES]
        return [((place,), index, index, at, (), False) for place, index, at in both if is_free(at)]
    if mode == "abs":
        places = [low + 256 * high for high in (0, 1, 127, 128, 0xC2) for low in EDGES]
        return [(word(at), 0, 0, at, (), False) for at in places if is_free(at)]
    if mode in ("abs,X", "abs,Y"):
        both = [(low + 256 * high, index) for high in (0, 1, 127, 128, 0xC2, 255) for low in EDGES for index in EDGES]
        both = [(base, index, (base + index) % 65536) for base, index in both]
        return [(word(base), index, index, at, (), base + index > 65535) for base, index, at in both if is_free(at)]
    if mode == "(zp,X)":
        both = [(place, index, (place + index) % 256) for place in EDGES for index in EDGES]
        return [((place,), index, 0, DATUM, ((at, DATUM & 0xFF), ((at + 1) % 256, DATUM >> 8)), False)
                for place, index, at in both if is_free(at) and is_free((at + 1) % 256)]
    if mode == "(zp),Y":
        both = [(128, low + 256 * high, index) for high in (0, 127, 128, 0xC2, 255) for low in EDGES for index in EDGES]
        both += [(place, DATUM - index, index) for place in (2, 127) for index in EDGES]
        both = [(place, base, index, (base + index) % 65536) for place, base, index in both]
        return [((place,), 0, index, at, ((place, base & 0xFF), (place + 1, base >> 8)), base + index > 65535)
                for place, base, index, at in both if is_free(at) and at not in (place, place + 1)]
    return []


USUAL = {"imm": ((), 0, 0, 0xC2F0, ()), "zp": ((128,), 0, 0, 128, ()), "zp,X": ((127,), 1, 0, 128, ()), "zp,Y": ((127,), 0, 1, 128, ()),
         "abs": (word(DATUM), 0, 0, DATUM, ()), "abs,X": (word(DATUM - 1), 1, 0, DATUM, ()), "abs,Y": (word(DATUM - 1), 0, 1, DATUM, ()),
         "(zp,X)": ((127,), 1, 0, DATUM, ((128, DATUM & 0xFF), (129, DATUM >> 8))),
         "(zp),Y": ((128,), 0, 1, DATUM, ((128, (DATUM - 1) & 0xFF), (129, DATUM >> 8)))}


def decimal_cases(name, code, x, y, at, pokes, mode):
    """Sums and differences of decimals. Flags that a machine takes otherwise are not compared."""
    mask = WHOLE & ~(N | V) if name == "ADC" else WHOLE
    for value in DECIMALS:
        those = ((at, value), *pokes)
        done = bytes(code) + (bytes((value,)) if mode == "imm" else b"")
        yield Case(done, x, y, USUAL_S, "decimal", "decimals", mask, those, True)
        if name == "ADC":
            yield Case(done, x, y, USUAL_S, "decimal", "decimals", mask & ~Z, those)


def value_cases(name, opcode, mode):
    """All edges of A and of the datum, with all flags, at one address."""
    operand, x, y, at, pokes = USUAL[mode]
    is_sum = name in ("ADC", "SBC")
    for value in EDGES:
        code = (opcode, *operand, *((value,) if mode == "imm" else ()))
        registers = {"LDX": (x, y), "CPX": (value ^ 1, y), "CPY": (x, value ^ 1)}.get(name, (x, y))
        yield Case(code, *registers, flags="binary" if is_sum else "all", pokes=((at, value), *pokes),
                   only_vice=(name, mode) == ("ROL", "abs,X"))
    if name in ("CPX", "CPY", "STX", "STY") and mode in ("imm", "zp", "abs"):
        for register in EDGES:
            for value in EDGES:
                code = (opcode, *operand, *((value,) if mode == "imm" else ()))
                yield Case(code, register, register, pokes=((at, value), *pokes))
    if is_sum:
        yield from decimal_cases(name, (opcode, *operand), x, y, at, pokes, mode)


def address_cases(name, opcode, mode):
    """All edges of the operand and the index."""
    for operand, x, y, at, pokes, is_past in operands(mode):
        for value in (1, 128):
            yield Case((opcode, *operand), x, y, flags="binary still" if name in ("ADC", "SBC") else "still", pokes=((at, value), *pokes),
                       only_vice=is_past or (name, mode) == ("ROL", "abs,X"))


def stack_cases(name, opcode):
    for s in (1, 127, 128, 255):
        for value in EDGES:
            above, own = 0x0100 + (s + 1) % 256, 0x0100 + s
            at = own if name in ("PHA", "PHP") else above
            datum = value | I if name == "PLP" else value  # so that no interrupt comes
            yield Case((opcode,), value if name == "TXS" else 0, 0, s, "still", pokes=((at, datum),))
    if name == "PLP":
        for value in range(64):
            yield Case((opcode,), s=128, flags="still", pokes=((0x0181, ALL[value] | I),))


def leading_cases(name, opcode):
    if name in BRANCHES:
        for offset in (0, 1, 127, 128):
            yield Case((opcode, offset))
    elif name == "JMP":
        yield Case((opcode, *word(LEADS)))
    elif name == "JMP()":
        for low in EDGES:
            at = 0xC300 + low
            high = 0xC300 + (low + 1) % 256  # it has its high byte from the same page
            yield Case((opcode, *word(at)), pokes=((at, LEADS & 0xFF), (high, LEADS >> 8)))
    elif name == "JSR":
        for s in (1, 127, 128):
            for at in (s, s - 1):
                yield Case((opcode, *word(LEADS)), s=s, flags="still", pokes=((0x0100 + at, 0),))
    elif name == "RTS":
        for s in (1, 127, 128, 255):
            back = word(LEADS - 1)
            yield Case((opcode,), s=s, flags="still", pokes=tuple((0x0100 + (s + 1 + k) % 256, back[k]) for k in range(2)))
    else:
        for s in (1, 127, 128, 255):
            for flags in ALL:
                those = bytes((flags | I,)) + word(LEADS)
                yield Case((opcode,), s=s, flags="still", pokes=tuple((0x0100 + (s + 1 + k) % 256, those[k]) for k in range(3)))


def cases_of(name, opcode, mode):
    if mode == "":
        return [Case((opcode,), value, value ^ 1) for value in EDGES] + [Case((opcode,), value ^ 1, value) for value in EDGES]
    if mode == "stack":
        return list(stack_cases(name, opcode))
    if mode == "leads":
        return list(leading_cases(name, opcode))
    return list(value_cases(name, opcode, mode)) + list(address_cases(name, opcode, mode))


def opcodes():
    """Each opcode with its name and mode."""
    for mode, those in MODES.items():
        names = those.split()
        for name, code in zip(names[::2], names[1::2]):
            yield name, int(code, 16), mode


def program(driver, cases):
    """The PRG that does these cases."""
    records = START + len(driver)
    at = records + SIZE * len(cases) + 1
    places, lists = {}, b""
    for name, those in [(name, bytes(those) + b"\xff") for name, those in LISTS.items()] + [(name, bytes(those)) for name, those in VALUES.items()]:
        places[name] = at + len(lists)
        lists += those
    assert at + len(lists) <= REGION_END
    return BASIC + driver + b"".join(case.record(places) for case in cases) + b"\x00" + lists


def in_parts(cases, room):
    """The cases in parts that one program can do, and that don't send too much."""
    part, sent = [], 0
    for case in cases:
        more = RESULT * case.results()
        if part and (sent + more > MOST_SENT or SIZE * (len(part) + 1) > room):
            yield part
            part, sent = [], 0
        part.append(case)
        sent += more
    if part:
        yield part


class Trial:
    def __init__(self, tbc, driver, sim65, vice):
        self.tbc = tbc
        self.driver = foreign_run.contents(driver)[2:]
        self.services = {"sim65": foreign_run.contents(sim65)}
        if vice != "-":
            self.services["vice"] = foreign_run.contents(vice)
        self.counts = {machine: 0 for machine in self.services}

    def sent(self, prg, folder):
        path = os.path.join(folder, "it.prg")
        with open(path, "wb") as file:
            file.write(prg)
        ran = subprocess.run([self.tbc, "run", "--prg", path, "--limit", "1000000000"], capture_output=True)
        if ran.returncode != 0:
            raise SystemExit(f"the program is not run to its end: {ran.stderr.decode().strip()}")
        return foreign_run.sent(ran.stdout)

    def differs(self, machine, part, folder):
        """How the cases differ on a machine, if they do."""
        prg = program(self.driver, part)
        wanted = self.sent(prg, folder)
        assert len(wanted) == RESULT * sum(case.results() for case in part)
        return foreign_run.RUNS[machine](folder, self.services[machine], prg, b"", wanted, 0)

    def compare(self, name, mode, machine, cases, folder):
        """Whether a machine does these cases of an opcode as they are done here. If not, says so, with the first that differs."""
        room = REGION_END - START - len(self.driver) - 200
        for part in in_parts(cases, room):
            if self.differs(machine, part, folder) is None:
                self.counts[machine] += sum(case.results() for case in part)
                continue
            first = next((case for case in part if self.differs(machine, [case], folder)), part[0])
            print(f"{name} {mode} in {machine}: {self.differs(machine, [first], folder)}; instruction {first.code.hex(' ')}, "
                  f"X {first.x}, Y {first.y}, S {first.s}, flags {first.flags}, A {first.values}, pokes {first.pokes}")
            return False
        return True

    def finds_a_wrong_byte(self, machine, folder):
        """The negative case: ORA in place of AND."""
        wrong, right = Case((0x09, 127)), Case((0x29, 127))
        wanted = self.sent(program(self.driver, [wrong]), folder)
        return foreign_run.RUNS[machine](folder, self.services[machine], program(self.driver, [right]), b"", wanted, 0) is not None


def main(tbc, driver, sim65, vice):
    trial = Trial(tbc, driver, sim65, vice)
    failed, number = 0, 0
    with tempfile.TemporaryDirectory() as folder:
        for name, opcode, mode in opcodes():
            number += 1
            cases = cases_of(name, opcode, mode)
            for machine in trial.services:
                those = [case for case in cases if machine == "vice" or not case.only_vice]
                failed += not trial.compare(name, mode, machine, those, folder)
        for machine in trial.services:
            if not trial.finds_a_wrong_byte(machine, folder):
                failed += 1
                print(f"a wrong byte is not found in {machine}")
    counts = ", ".join(f"{count} results as in {machine}" for machine, count in trial.counts.items())
    print(f"{number} opcodes: {counts}; {failed} with another result")
    print(DIFFERENCES, end="")
    return failed != 0 or number != 150


if __name__ == "__main__":
    sys.exit(main(*sys.argv[1:]))
