#!/usr/bin/env python3
"""Tries, with no proof, what can be tried in a fresh clone in a few minutes. That is what `./tbc --test` does:

  - the worked rows of tb_golden, examples and checks of sources among them, by a trial run, compared with what is stored;
  - what is typed in the transcripts of the examples, and generated programs, compiled and run in one trial run, compared
    with the interpreter of tools/interpreter.py, which is written from docs/LANGUAGE.md alone.

Its last line is `N passed, M failed`, and its status is 1 if anything failed.

    tools/quick_tests.py [--programs] [COUNT]    how many programs are generated; 300 by default. With --programs the worked
                                                 rows are left out, which tools/trials.py tries too"""
import random
import re
import subprocess
import sys
import tempfile
import threading
from itertools import chain
from pathlib import Path

TOP = Path(__file__).resolve().parent.parent
sys.path[:0] = [str(TOP / "tools"), str(TOP / "tools/try/foreign")]
sys.dont_write_bytecode = True
import interpreter
import looping_programs
from trials import SECONDS, SLOW, Tally, memory, rows, say, try_rows

KILOBYTES_SIDE_BY_SIDE = 6_000_000
LINES = 300  # the most that a generated program takes, since a trial run is slow
EXAMPLE_LINES = 2_000  # the most that an example takes
LIMIT = "1000000"  # of events
STEP = 100  # how often it is told how far the programs are


def jumping_program(chance):
    """A program whose jumps all lead forward, and the keys that it is given: what it does at faults and at its end counts."""
    lines, subroutines = chance.randrange(5, 25), [2000, 2100]

    def word():
        kinds = [chance.choice("ABCDE"), str(chance.randrange(10)), str(chance.choice([255, 256, 32767, 32768, 65535]))]
        return chance.choice(kinds)

    def expression(depth=2):
        if depth == 0 or chance.random() < 0.4:
            return word()
        made = f"{expression(depth - 1)}{chance.choice('+-*/')}{expression(depth - 1)}"
        return chance.choice([made, f"({made})", f"(-({made}))", f"RND({word()})"])

    def statement(at):
        ahead = chance.randrange(at + 1, lines + 2) * 10
        condition = f"{expression()}{chance.choice(looping_programs.RELATIONS)}{expression()}"
        separator = chance.choice(",;")
        return chance.choice([
            f"LET {chance.choice('ABCDE')}={expression()}",
            f"PRINT {expression()}{separator}\"X\"{separator}{expression()}{chance.choice(['', ';', ','])}",
            f"IF {condition} THEN PRINT {expression()}",
            f"IF {condition} GOTO {ahead}",
            f"GOTO {ahead - 1}+1" if chance.random() < 0.3 else f"{chance.choice('AB')}={word()}",
            f"GOSUB {chance.choice(subroutines)}",
            f"INPUT {chance.choice('ABC')},{chance.choice('DE')}",
            "REM NOTHING",
        ])

    source = [f"{at * 10} {statement(at)}" for at in range(1, lines)]
    source += [f"{lines * 10} PRINT A,B,C", f"{lines * 10 + 10} END"]
    source += [f"{it} PRINT {expression()}\n{it + 10} RETURN" for it in subroutines]
    typed = [chance.choice(["12", "-7", "3,4", "X", "", "A+1", "99999"]) for _ in range(chance.randrange(6))]
    return "\n".join(source) + "\n", "".join(f"{it}\r" for it in typed).encode()


def examples():
    """Each example with the keys of each of its transcripts, and the options that this asks for."""
    for path in interpreter.transcripts():
        options, typed = interpreter.asked(path)
        name = "_".join(path.relative_to(TOP / "examples").parts).split(".")[0]
        yield name, interpreter.source_beside(path).read_text(), "".join(f"{it}\r" for it in typed).encode(), options


def generated(count):
    chance = random.Random(1)
    for at in range(count):
        source, keys = (looping_programs.program(chance), b"") if at % 3 else jumping_program(chance)
        yield f"program_{at:03}", source, keys, []


def lay(folder, name, source, keys, options):
    """Lays a case for rt try: a source, its words, and what is wanted. The status that is wanted; nothing for a source
    whose end the interpreter does not see."""
    path = folder / name
    path.write_text(source)
    lines = LINES if name.startswith("program_") else EXAMPLE_LINES
    ending, shown = interpreter.ran(path, keys.upper(), b"", interpreter.seed_of(options), lines, "petscii" in options)
    if ending == "goes on":
        path.unlink()
        return None
    words = ["run", "{}", "--limit", LIMIT, *(it for option in options for it in f"--{option}".split())]
    words += ["--keys", keys.upper().hex()] if keys else []
    (folder / f"{name}.args").write_text("\n".join(words) + "\n")
    (folder / f"{name}.stdout").write_text(shown)
    return {"ended": "0", "waits": "6"}[ending]


def laid(folder, count):
    """The status that is wanted of each case: of the examples that are short, and of so many short programs."""
    wanted = {}
    for at, (name, source, keys, options) in enumerate(chain(examples(), generated(4 * count))):
        if sum(it.startswith("program_") for it in wanted) == count:
            break
        name = name if name.startswith("program_") else f"{name}_{at}"
        status = lay(folder, name, source, keys, options)
        if status:
            wanted[name] = status
    return wanted


def program(room):
    """The crate of the program in a copy for trial runs of `run`; that of this repository if there is no such copy."""
    made = subprocess.run([sys.executable, TOP / "tools/trial_copy.py", room, "tbc", "run"], capture_output=True)
    return (TOP if made.returncode else Path(room)) / "crates/tbc"


def try_programs(tally, room, count):
    cases = Path(room) / "cases"
    cases.mkdir()
    wanted = laid(cases, count)
    words = ["rt", "try", "--seconds", SECONDS, "--cases", str(cases)]
    crate = program(f"{room}/copy")
    ran = subprocess.Popen(words, cwd=crate, stdin=subprocess.DEVNULL, stdout=subprocess.DEVNULL, stderr=subprocess.PIPE)
    said, seen = [], {}
    for line in ran.stderr:
        said.append(line.decode(errors="replace"))
        case = re.match(r"case=(\w+) run=ended status=(\d+) .*output=(\w+)", said[-1])
        if case:
            seen[case[1]] = case[2] if case[3] == "expected" else "another output"
            if len(seen) % STEP == 0:
                say(f"{len(seen)} of {len(wanted)} programs have run")
    failures = [f"{name}: wanted status {status}, found {seen.get(name)}" for name, status in wanted.items() if seen.get(name) != status]
    if failures:
        failures[0] += "\n" + "".join(said)[-2000:]
    played = sum(not it.startswith("program_") for it in wanted)
    what = f"{played} play-throughs of examples and {len(wanted) - played} generated programs, compared with the interpreter"
    tally.add(what, len(wanted) - len(failures), failures)


def main(words):
    alone = words[:1] == ["--programs"]
    count = int(([300] + words[alone:])[-1])
    tally = Tally()
    print("This tries what can be tried without proving, by trial runs of the toolchain. It takes some minutes.", flush=True)
    with tempfile.TemporaryDirectory(prefix="tbc-test-") as room:
        works = [] if alone else [lambda: try_rows(tally, f"{room}/rows")]
        works.append(lambda: try_programs(tally, room, count))
        threads = [threading.Thread(target=it) for it in works]
        for it in threads:
            it.start()
            if memory() < KILOBYTES_SIDE_BY_SIDE:
                it.join()
        for it in threads:
            it.join()
    if interpreter.check():
        tally.failed += 1
    else:
        tally.passed += 1
    if not alone:
        slow = sum(it.startswith(SLOW) for it in rows())
        print(f"{slow} rows that take long in a trial run are left to `tools/trials.py --prove`.")
    print("Nothing here is proved. That compiled programs do what their sources mean, for every source, keyboard and ROM, is")
    print("what `rt ci` proves, from nothing: see docs/PROVED.md.")
    print(f"{tally.passed} passed, {tally.failed} failed")
    return 1 if tally.failed else 0


if __name__ == "__main__":
    sys.exit(main(sys.argv[1:]))
