#!/usr/bin/env python3
"""Writes random Tiny BASIC programs that end, to compare cycles: looping_programs.py FOLDER COUNT SEED

Each has nested loops by counters, sums, products, quotients, tests, subroutines and texts.
"""
import random
import sys
from pathlib import Path

OPERATORS = "+-*/"
RELATIONS = ["=", "<", ">", "<=", ">=", "<>"]
FREE = "ABCDEFGH"


def expression(random_source, depth):
    if depth == 0 or random_source.random() < 0.3:
        return random_source.choice(FREE) if random_source.random() < 0.6 else str(random_source.randrange(300))
    left = expression(random_source, depth - 1)
    right = expression(random_source, depth - 1)
    operator = random_source.choice(OPERATORS)
    if operator == "/":
        return f"({left})/({right}*2+1)"
    return f"({left}){operator}({right})"


def statement(random_source):
    kind = random_source.randrange(5)
    if kind == 0:
        return f"PRINT {expression(random_source, 1)};\" \";{random_source.choice(FREE)}"
    if kind == 1:
        test = f"{expression(random_source, 1)} {random_source.choice(RELATIONS)} {expression(random_source, 1)}"
        return f"IF {test} THEN LET {random_source.choice(FREE)}={expression(random_source, 2)}"
    if kind == 2:
        return f"LET {random_source.choice(FREE)}=RND({random_source.randrange(1, 500)})"
    if kind == 3:
        return f"GOSUB {random_source.choice([900, 910])}"
    return f"LET {random_source.choice(FREE)}={expression(random_source, 3)}"


def program(random_source):
    lines = ["10 LET I=0", "20 LET J=0"]
    body = [statement(random_source) for _ in range(random_source.randrange(3, 12))]
    lines += [f"{100 + 10 * k} {text}" for k, text in enumerate(body)]
    lines += [
        "300 LET J=J+1",
        f"310 IF J<{random_source.randrange(2, 9)} THEN GOTO 100",
        "320 LET I=I+1",
        f"330 IF I<{random_source.randrange(2, 12)} THEN GOTO 20",
        "340 PRINT I,J",
        "350 END",
        f"900 LET {random_source.choice(FREE)}={expression(random_source, 2)}",
        "905 RETURN",
        "910 GOSUB 900",
        "920 RETURN",
    ]
    return "\n".join(lines) + "\n"


def main():
    folder, count, seed = Path(sys.argv[1]), int(sys.argv[2]), int(sys.argv[3])
    random_source = random.Random(seed)
    for k in range(count):
        (folder / f"looping_{k:02}.bas").write_text(program(random_source))


if __name__ == "__main__":
    main()
