#!/usr/bin/env python3
"""Runs 300 generated sources with signs in their texts by `tbc run --petscii`, and compares what they show with
tools/interpreter.py; where that finds a sign that is none, the source must be refused for a bad byte on the same line.
What a line shows is then put into a text of another source, as it is shown, and must be shown again.

    tools/try/signed_sources.py TBC [SOURCES [SEED]]"""
import random
import subprocess
import sys
import tempfile
from pathlib import Path

sys.path.insert(0, str(Path(__file__).resolve().parents[1]))
sys.dont_write_bytecode = True
import interpreter

COUNT, SEED = 300, 64
LONGEST = 180  # bytes of a line as it is made here; most stand for less than 255
BAD = ["{cls}", "{22}", "{0d}", "{0 up}", "{256 red}", "{1 C1}", "{}", "{ clr}", "{clr }", "{+3 up}", "{C}", "{clr"]


def cased(chance, word):
    return "".join(chance.choice([letter.lower(), letter.upper()]) for letter in word)


def sign(chance):
    kind = chance.randrange(8)
    if kind < 3:
        return "{" + cased(chance, chance.choice(list(interpreter.CONTROLS))) + "}"
    if kind < 5:
        return f"{{{chance.choice([1, 2, 3, 7, '04'])} {cased(chance, chance.choice(list(interpreter.CONTROLS)))}}}"
    if kind < 7:
        return "{" + cased(chance, f"{chance.choice([it for it in range(256) if it not in (13, 34)]):02x}") + "}"
    return chance.choice("[]")


def text(chance, most):
    made = ""
    while len(made) < most and chance.random() < 0.9:
        made += sign(chance) if chance.random() < 0.5 else chance.choice("abcXYZ 019.,;:!?*")
    return made


def source(chance):
    """Lines with texts, and perhaps one whose text has what is no sign."""
    bad = chance.randrange(6) if chance.random() < 0.2 else None
    lines = []
    for at in range(6):
        one, other = text(chance, LONGEST // 3), text(chance, 20)
        if at == bad:
            one += chance.choice(BAD)
        lines.append(f'{10 * at + 10}{chance.choice(["", " "])}PR INT"{one}"{chance.choice(";,")}{at}{chance.choice(["", ";", ",", ";"])}'
                     if chance.random() < 0.5 else f'{10 * at + 10} print "{one}","{other}"')
    return "\n".join([*lines, f"{chance.choice([70, 80])} REM {{", "90 END", ""]), bad


def run(tbc, file, of):
    file.write_text(of, "latin-1")
    ran = subprocess.run([tbc, "run", "--petscii", file], capture_output=True, check=False)
    return ran.stdout.decode("latin-1"), ran.stderr.decode(), ran.returncode


def wanted_of(file):
    try:
        return interpreter.ran(file, has_signs=True)[1]
    except interpreter.Syntax:
        return None


def again(shown):
    """A source that shows the same, line by line."""
    return "".join(f'{at} PRINT "{line}"\n' for at, line in enumerate(shown.split("\n"), 1)) + "9999 END\n"


def main(tbc, count=COUNT, seed=SEED):
    chance = random.Random(int(seed))
    shows = refused = long = differing = 0
    with tempfile.TemporaryDirectory() as folder:
        file = Path(folder) / "it.bas"
        for _ in range(int(count)):
            made, bad = source(chance)
            shown, said, status = run(tbc, file, made)
            wanted = wanted_of(file)
            if said.endswith("line too long\n"):  # of which the interpreter knows nothing
                long += 1
            elif wanted is None:
                refused += 1
                good = status == 1 and shown == "" and said.startswith(f"tbc: {bad + 1}:") and said.endswith(": bad byte\n")
                differing += not good
            else:
                shows += 1
                good = (shown, said, status) == (wanted, "", 0)
                if good and all(len(line) < LONGEST for line in shown.split("\n")):
                    good = run(tbc, file, again(shown))[0] == shown + "\n"
                differing += not good
                if not good:
                    print(f"{made!r} shows {shown[:300]!r}, not {wanted[:300]!r}; {said}", file=sys.stderr)
    print(f"signed sources: {shows} shown, {refused} refused, {long} too long, {differing} other than they should be")
    return 1 if differing or not shows or not refused else 0


if __name__ == "__main__":
    sys.exit(main(*sys.argv[1:]))
