#!/usr/bin/env python3
"""Writes the PRGs of tools/try/foreign/opcode_programs.py, which do every documented opcode at its edges, and a list
for machine_trial.mjs: opcode_runs.py DRIVER FOLDER

In the list are also small PRGs with each byte as an opcode, where open memory ends, and with operands that lead to
closed memory."""
import sys
from pathlib import Path

sys.path.insert(0, str(Path(__file__).resolve().parents[1] / "foreign"))
sys.dont_write_bytecode = True
from opcode_programs import REGION_END, START, cases_of, in_parts, opcodes, program, word

LAST = (0x9FFE, 0x9FFF, 0xCFFE, 0xCFFF)
CLOSED = (0x0000, 0x00FF, 0x9FFF, 0xA000, 0xD000, 0xFFFF)  # or next to what is closed
NOP = 0xEA


def edges_of_memory(opcode):
    for at in LAST:
        yield word(at) + bytes((opcode, NOP))[:2 - at % 2]
    for operand in CLOSED:
        yield word(0xC000) + bytes((opcode,)) + word(operand)


def main(driver, folder):
    code = Path(driver).read_bytes()[2:]
    room = REGION_END - START - len(code) - 200
    for name, opcode, mode in opcodes():
        for number, part in enumerate(in_parts(cases_of(name, opcode, mode), room)):
            path = Path(folder) / f"{opcode:02x}_{number}.prg"
            path.write_bytes(program(code, part))
            print(path)
    for opcode in range(256):
        for number, small in enumerate(edges_of_memory(opcode)):
            print(f"@ code={small.hex()} fill={256 * number + opcode} limit=4")


if __name__ == "__main__":
    main(*sys.argv[1:])
