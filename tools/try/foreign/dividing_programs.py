#!/usr/bin/env python3
"""Writes random Tiny BASIC programs that divide, and the keys that they read: dividing_programs.py FOLDER COUNT SEED

Each divides numbers at the edges of bytes and words by each other, by variables and by constants, takes remainders, draws
numbers, and reads numbers with INPUT. One in eight divides by 0. The keys are beside it, as pairs of digits in NAME.keys.
"""
import random
import sys
from pathlib import Path

EDGES = [0, 1, 2, 3, 10, 100, 126, 127, 128, 129, 255, 256, 257, 511, 512, 1000, 16383, 16384, 32766, 32767]
REMAINDERS = [2, 2, 4, 8, 16, 32, 64, 128, 256, 3, 10, 127, 255, 257, 512]
FIRST, LAST = "ABCDEFGH", "IJKLMNOP"


def number(random_source):
    size = random_source.choice(EDGES) if random_source.random() < 0.7 else random_source.randrange(32768)
    return -size if random_source.random() < 0.4 else size


def text(value):
    return str(value) if value >= 0 else f"(0{value})"


def divisor(random_source):
    return number(random_source) or 7


def program(random_source):
    lines, keys = [], ""
    for name in FIRST:
        if random_source.random() < 0.2:
            lines.append(f"INPUT {name}")
            keys += f"{number(random_source)}\r"
        else:
            lines.append(f"LET {name}={text(number(random_source))}")
    if random_source.random() < 0.3:
        lines.append("LET A=0-32767-1")
    for name in LAST:
        lines.append(f"LET {name}={text(divisor(random_source))}")
    for _ in range(random_source.randrange(6, 14)):
        left, right = random_source.choice(FIRST), random_source.choice(LAST)
        kind = random_source.randrange(7)
        if kind == 0:
            lines.append(f"PRINT {left}/{right};\" \";{left}-{left}/{right}*{right}")
        elif kind == 1:
            lines.append(f"PRINT {left}/{text(divisor(random_source))}")
        elif kind == 2:
            lines.append(f"LET Z={left}-{left}/{right}*{right}")
            lines.append("PRINT Z")
        elif kind == 3:
            lines.append(f"IF {left}/{right}*{right}={left} THEN PRINT \"YES\"")
        elif kind == 4:
            lines.append(f"PRINT RND({abs(divisor(random_source))})")
        elif kind == 5:
            constant = random_source.choice(REMAINDERS)
            into = random_source.choice((left, "Z"))
            lines.append(f"LET {into}={left}-{left}/{constant}*{constant}")
            lines.append(f"PRINT {into};\" \";{right}-{right}/{constant}*{constant}")
        else:
            lines.append(f"LET {left}=({left}+{random_source.choice(FIRST)})/{right}")
    if random_source.random() < 0.125:
        lines.append("PRINT A/(B-B)")
    lines.append("END")
    return "".join(f"{10 * k} {line}\n" for k, line in enumerate(lines, 1)), keys


def main():
    folder, count, seed = Path(sys.argv[1]), int(sys.argv[2]), int(sys.argv[3])
    random_source = random.Random(seed)
    for k in range(count):
        source, keys = program(random_source)
        (folder / f"dividing{k}.bas").write_text(source)
        (folder / f"dividing{k}.keys").write_text(keys.encode().hex())


if __name__ == "__main__":
    main()
