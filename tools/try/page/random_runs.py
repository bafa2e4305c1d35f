#!/usr/bin/env python3
"""Writes a list of random PRGs for machine_trial.mjs, those of tools/try/foreign/random_programs.py; every second one
has a hostile ROM: random_runs.py COUNT"""
import random
import sys
from pathlib import Path

sys.path.insert(0, str(Path(__file__).resolve().parents[1] / "foreign"))
sys.dont_write_bytecode = True
from random_programs import record

LIMIT = 2000


def main(count):
    chance = random.Random(6510)
    for k in range(int(count)):
        rom = f" rude={chance.randrange(65536)}" if k % 2 else ""
        print(f"@ code={record(chance)[1:].hex()} fill={chance.randrange(65536)} limit={LIMIT}{rom}")


if __name__ == "__main__":
    main(*sys.argv[1:])
