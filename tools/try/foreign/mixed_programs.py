#!/usr/bin/env python3
"""Writes random Tiny BASIC programs of all statements, and the keys that they read: mixed_programs.py FOLDER COUNT SEED

Each has lines of any statement, in any spelling; jumps lead on, and back by a counter; subroutines call each other; some
lines are missing or left by a fault. What is typed has bad numbers too, and may be too little. The keys are beside the
program, as pairs of digits in NAME.keys.
"""
import random
import sys
from pathlib import Path

NAMES = "ABCDEFGHIJKLMNOP"
EDGES = [0, 1, 2, 7, 10, 127, 128, 255, 256, 257, 1000, 32766, 32767]
RELATIONS = ["=", "<", ">", "<=", ">=", "<>", "><"]
TEXTS = ["", "A", "HELLO, WORLD", "1+1=", " @?! ", "/", ";"]
MOST_ROUNDS = 30
STEP = 10
LONGEST_LINE = 255


def number(chance):
    return str(chance.choice(EDGES) if chance.random() < 0.6 else chance.randrange(32768))


def expression(chance, depth):
    kind = chance.random()
    if depth == 0 or kind < 0.3:
        return chance.choice(NAMES) if chance.random() < 0.6 else number(chance)
    if kind < 0.36:
        return f"RND({unfaulty(chance, str(chance.randrange(1, 32768)), depth)})"
    if kind < 0.46:
        return f"({chance.choice('+-')}{expression(chance, depth - 1)})"
    left = expression(chance, depth - 1)
    if kind < 0.6:
        return f"({left}/{unfaulty(chance, f'({expression(chance, depth - 1)}*2+1)', depth)})"
    return f"({left}{chance.choice('+-*')}{expression(chance, depth - 1)})"


def unfaulty(chance, sure, depth):
    """What makes no fault, mostly."""
    return sure if chance.random() < 0.98 else expression(chance, depth - 1)


def item(chance):
    return f'"{chance.choice(TEXTS)}"' if chance.random() < 0.4 else expression(chance, 2)


def printing(chance):
    items = [item(chance) for _ in range(chance.randrange(4))]
    separators = [chance.choice(",;") for _ in items[1:]]
    return "PRINT " + "".join(one + next_one for one, next_one in zip(items, separators + [""])) + (
        chance.choice(["", "", ";", ","]) if items else "")


def typed(chance):
    kind = chance.random()
    if kind < 0.03:
        return chance.choice(["", "X", "1X", "-", "99999", "32768", "- 5"])
    return str(chance.choice(EDGES) * chance.choice((1, 1, -1)))


def statement(chance, lines, keys):
    """A statement of the next line. A jump leads at most 40 lines on."""
    ahead = (len(lines) + 1 + chance.randrange(1, 5)) * STEP
    kind = chance.randrange(12)
    if kind < 4:
        return f"LET {chance.choice(NAMES)}={expression(chance, 3)}"
    if kind < 7:
        return printing(chance)
    if kind < 9:
        test = f"{expression(chance, 2)}{chance.choice(RELATIONS)}{expression(chance, 2)}"
        return f"IF {test} {chance.choice(['THEN ', ''])}{statement(chance, lines, keys)}"
    if kind == 9:
        return f"GOTO {ahead}"
    if kind == 10:
        return f"GOSUB {chance.choice([9000, 9100, 9200, ahead])}"
    names = chance.sample(NAMES, chance.randrange(1, 4))
    keys.append(",".join(typed(chance) for _ in names) if chance.random() < 0.5 else "\r".join(typed(chance) for _ in names))
    return "INPUT " + ",".join(names)


def line(chance, place, text):
    """A line in a spelling: letters may be small, and spaces are free. One that would be too long is a remark."""
    if chance.random() < 0.2 and '"' not in text:
        text = text.lower()
    if chance.random() < 0.2 and '"' not in text:
        text = text.replace(" ", "") if chance.random() < 0.5 else text.replace("=", " = ")
    spelled = f"{place}{chance.choice([' ', '', '  '])}{text}"
    return f"{spelled if len(spelled) <= LONGEST_LINE else f'{place} REM'}\n"


def program(chance):
    lines, keys = [], []
    for _ in range(chance.randrange(4, 40)):
        lines.append(statement(chance, lines, keys))
    count = len(lines)
    places = [(number + 1) * STEP for number in range(count)]
    tail = ["Z=Z+1", f"IF Z<{chance.randrange(MOST_ROUNDS)} GOTO {chance.choice(places)}", "PRINT A;B;C;D,E,F"]
    tail.append("END" if chance.random() < 0.9 else "REM")
    places += [(count + 1 + number) * STEP for number in range(len(tail))]
    rows = list(zip(places, lines + tail))
    rows += [(9000, printing(chance)), (9010, "RETURN"), (9100, "Y=Y+1"), (9110, f"IF Y<{chance.randrange(9)} GOSUB 9100"),
             (9120, "RETURN"), (9200, "GOSUB 9000"), (9210, "GOTO 9010")]
    rows = [row for row in rows if chance.random() > 0.01]  # a line is missing now and then
    chance.shuffle(rows)
    return "".join(line(chance, place, text) for place, text in rows), "".join(f"{key}\r" for key in keys * 3)


def main():
    folder, count, seed = Path(sys.argv[1]), int(sys.argv[2]), int(sys.argv[3])
    chance = random.Random(seed)
    for k in range(count):
        source, keys = program(chance)
        (folder / f"mixed{k}.bas").write_text(source)
        (folder / f"mixed{k}.keys").write_text(keys.encode().hex())


if __name__ == "__main__":
    main()
