#!/usr/bin/env python3
"""Tries the crates of trials/, which no landing proves: tests, and programs that answer worked rows.

    tools/trials.py [NAME..]            by trial runs, in which nothing is proved; trials/fewer.txt has what is tried
                                        fewer times there. It says of each crate what passed, and how long it took.
                                        JOBS of them are tried side by side, or as many as there is room for
    tools/trials.py --prove [NAME..]    by the gate (`rt ci`) in a copy: proved, built, and all of it tried. It takes
                                        hours, and is for a campaign

With no NAME it tries all. Its last line is `N passed, M failed`, and its status is 1 if anything failed.

The gate refuses a file of Rattle that no crate of crates.txt has. So the files of these crates have other endings:
`.rs` for `.rt`, and `.antt.txt` for `.antt`. They are tried in a copy, in which they are crates beside the others."""
import os
import re
import shutil
import subprocess
import sys
import tempfile
import threading
import time
from concurrent.futures import ThreadPoolExecutor
from pathlib import Path

TOP = Path(__file__).resolve().parent.parent
sys.path.insert(0, str(TOP / "tools"))
sys.dont_write_bytecode = True
import trial_copy

TRIALS = TOP / "trials"
GOLDEN = TRIALS / "tb_golden"
SECONDS = "1800"  # as many as each trial run gets, also on a busy machine
KILOBYTES_A_RUN = 2_500_000
SHOWN = 5  # as many failures are told in full
# Crates whose tests are tried as one, since it takes about as long to build what is below one of them as below all. What
# takes longest comes first.
TOGETHER = [["tb_tool_tests", "tb_tests"], ["tb_editor_tests", "tb_source_tests", "tb_assembly_tests", "tb_screen_tests"]]
JOINED = "tb_trials"  # what they become
# Rows of tb_golden that take long in a trial run, by how they begin: they are left to a campaign.
SLOW = ("random ", "repeated ", "check {104857", "check {99998", "cuts ", "kept ", "back_over_rude_up_to ",
        "back_over_rude 333", "back_over_rude 999", "back_over_rude 1000", "compile_gives_up_for_memory ")
began = time.monotonic()


def say(text):
    print(f"{time.monotonic() - began:4.0f} s  {text}", flush=True)


class Tally:
    """What passed and what failed. Several threads add to it."""

    def __init__(self):
        self.passed, self.failed, self.lock = 0, 0, threading.Lock()

    def add(self, what, passed, failures, took=""):
        with self.lock:
            self.passed += passed
            self.failed += len(failures)
            say(f"{what}: {passed} passed, {len(failures)} failed{took}")
            for it in failures[:SHOWN]:
                print(it, flush=True)


# Copies.


def names():
    """The crates of trials/ that are tried; the others only serve them."""
    found = trial_copy.crates((TRIALS / "list.txt").read_text())
    return [it for it in found if tests(it) or (TRIALS / it / "stdout").exists()]


def tests(name):
    """How many tests a crate has."""
    return sum(it.read_text().count("\n#[test]\n") for it in (TRIALS / name / "src").rglob("*.rs"))


def as_crate(name, to, parts):
    """Copies a crate of trials/, with these parts of it and the endings of a crate."""
    for file in sorted(it for it in (TRIALS / name).rglob("*") if it.is_file()):
        inside = str(file.relative_to(TRIALS / name))
        if inside.split("/")[0] not in parts:
            continue
        inside = inside.removesuffix(".txt") if inside.endswith(".antt.txt") else re.sub(r"^(src/.*)\.rs$", r"\1.rt", inside)
        (to / inside).parent.mkdir(parents=True, exist_ok=True)
        shutil.copyfile(file, to / inside)
    if name == "tb_golden" and "data" in parts:
        shutil.copytree(TOP / "examples", to / "data/examples", ignore=shutil.ignore_patterns("asm"))


def make_fewer(crates):
    """Has the copy try fewer, as trials/fewer.txt says."""
    for it in (TRIALS / "fewer.txt").read_text().split("\nfile: ")[1:]:
        file = it.partition("\n")[0]
        copied = crates / file.replace(".rs", ".rt")
        if not (TRIALS / file).exists():
            sys.exit(f"trials: trials/fewer.txt names {file}, which is not there")
        if copied.exists():
            text = copied.read_text()
            for old, new in re.findall(r"\nold: (.*)\nnew: (.*)", it):
                if text.count(old) != 1:
                    sys.exit(f"trials: {file} doesn't have once what trials/fewer.txt says: {old}")
                text = text.replace(old, new)
            copied.write_text(text)


def lay_below(room, name, needs):
    """Adds what is below a crate of the copy to it: sources alone, since a trial run tests no definition."""
    table = trial_copy.crates((TOP / "crates.txt").read_text() + (TRIALS / "list.txt").read_text())
    table[name] = needs or table[name]
    needed, left = set(), [name]
    while left:
        it = left.pop()
        if it in table and it not in needed:
            needed.add(it)
            left += table[it]
    for it in sorted(needed - {name}):
        if (TRIALS / it).exists():
            as_crate(it, room / "crates" / it, ["src"])
        else:
            shutil.copytree(TOP / "crates" / it / "src", room / "crates" / it / "src")
    (room / "crates.txt").write_text("".join(f"{it}: {' '.join(below)}\n" for it, below in table.items() if it in needed))
    shutil.copy(TOP / "HANDLES", room)


def rows_room(room, name):
    """Makes the copy for a trial run of a program that answers rows. The crate's folder."""
    as_crate(name, room / "crates" / name, ["src", "data", "stdin"])
    lay_below(room, name, None)
    return room / "crates" / name


def tests_room(room, chosen):
    """Makes the copy for a trial run of crates of tests, each of which becomes a module of one crate. The crate's folder."""
    for it in chosen:
        as_crate(it, room / "crates" / it, ["src"])
    make_fewer(room / "crates")
    sources = room / "crates" / JOINED / "src"
    for name in chosen:
        own = room / "crates" / name / "src"
        for file in own.rglob("*.rt"):
            inside = file.relative_to(own)
            to = sources / (f"{name}.rt" if inside.name == "lib.rt" else name / inside)
            to.parent.mkdir(parents=True, exist_ok=True)
            text = re.sub(r"(?m)^#!\[.*\n", "", file.read_text())
            to.write_text(re.sub(r"\bcrate::", f"crate::{name}::", text))
        shutil.rmtree(room / "crates" / name)
    (sources / "lib.rt").write_text("#![tactic(auto)]\n\n" + "".join(f"mod {it};\n" for it in chosen))
    table = trial_copy.crates((TRIALS / "list.txt").read_text())
    lay_below(room, JOINED, sorted(set().union(*(table[it] for it in chosen))))
    return room / "crates" / JOINED


# Trial runs.


def ran(words, folder, stdin=None):
    """Runs a command: its status, what it wrote, and how long it took."""
    before = time.monotonic()
    with tempfile.TemporaryFile() as said, tempfile.TemporaryFile() as complained, open(stdin or os.devnull, "rb") as given:
        process = subprocess.Popen(words, cwd=folder, stdin=given, stdout=said, stderr=complained)
        _, status, used = os.wait4(process.pid, 0)
        process.returncode = os.waitstatus_to_exitcode(status)
        texts = []
        for it in (said, complained):
            it.seek(0)
            texts.append(it.read())
    took = f", {time.monotonic() - before:.0f} s, {used.ru_utime + used.ru_stime:.0f} s of processor time"
    return process.returncode, texts[0], texts[1].decode(errors="replace"), took


def rows():
    """All rows of tb_golden, as they are written."""
    lines = (line for file in sorted(GOLDEN.glob("data/*/*.txt")) for line in file.read_text("latin-1").splitlines())
    return {line for line in lines if line.strip() and not line.startswith("#")}


def is_first(name):
    """How the first line of an answer is known."""
    known = rows() if name == "tb_golden" else set()
    return {
        "tb_golden": lambda line: line.partition(" =>")[0] in known,
        "tb_assembly_golden": lambda line: line.startswith("== "),
        "tb_screen_golden": lambda line: True,
    }[name]


def answers(text, begins):
    """The answers in a page of rows: a list of rows, each with all its lines but comments and empty ones. The slow rows
    are left out."""
    found = []
    for line in text.splitlines():
        if begins(line):
            found.append([])
        if found and line and not line.startswith("#"):
            found[-1].append(line)
    return [it for it in found if not it[0].startswith(SLOW)]


def data_words(data):
    """The words that hand a folder's files to a trial run, once the slow rows are taken out."""
    words = []
    for file in sorted(it for it in data.rglob("*") if it.is_file()):
        if file.suffix == ".txt":
            lines = file.read_bytes().splitlines(keepends=True)
            file.write_bytes(b"".join(it for it in lines if not it.decode("latin-1").startswith(SLOW)))
        words += ["--data", f"{file.relative_to(data)}={file}"]
    return words


def try_rows(tally, room, name="tb_golden"):
    """Compares what a program answers to its rows with what is stored."""
    crate = rows_room(Path(room), name)
    words = ["rt", "try", "--seconds", SECONDS, *data_words(crate / "data")]
    stdin = crate / "stdin"
    status, said, complained, took = ran(words, crate, stdin if stdin.exists() else None)
    begins = is_first(name)
    wanted = answers((TRIALS / name / "stdout").read_text("latin-1"), begins)
    found = answers(said.decode("latin-1"), begins)
    more = len(found) > len(wanted)
    found += [["no answer"]] * (len(wanted) - len(found))
    failures = [f"wanted {want}\nfound {have}" for want, have in zip(wanted, found) if want != have]
    if more:
        failures.append("there are more answers than are stored")
    if status and not failures:
        failures.append(f"the trial run ended with status {status}")
    if failures:
        failures[0] += "\n" + complained[-2000:]
    passed = len(wanted) - sum(it.startswith("wanted") for it in failures)
    tally.add(f"worked rows of {name}, compared with the stored answers", passed, failures, took)


def try_tests(tally, room, chosen):
    """Runs the tests of crates, as one crate."""
    status, said, complained, took = ran(["rt", "try", "--test", "--seconds", SECONDS], tests_room(room, chosen))
    text = said.decode(errors="replace") + complained
    for it in chosen:
        passed = len(re.findall(rf"(?m)^test {it}::\S+ \.\.\. ok$", text))
        failures = re.findall(rf"(?m)^test {it}::\S+ \.\.\. (?!ok$).*\n(?:(?!test ).*\n)*", text)
        failures += [text[-2000:]] * (tests(it) > passed + len(failures))
        failures += [f"{it}: a test without an answer"] * (tests(it) - passed - len(failures))
        tally.add(f"tests of {it}", passed, failures, took if it == chosen[-1] else "")
    if status and not tally.failed:
        tally.add("these tests", 0, [f"the trial run ended with status {status}\n{text[-2000:]}"])


def memory():
    with open("/proc/meminfo") as file:
        return int(re.search(r"MemAvailable: *(\d+)", file.read())[1])


def works(chosen):
    """What is tried of these crates, in programs of their own: each a function, and what it is given."""
    for group in TOGETHER + [[it] for it in chosen if tests(it) and not any(it in group for group in TOGETHER)]:
        here = [it for it in group if it in chosen]
        if here:
            yield try_tests, here
    for it in chosen:
        if not tests(it):
            yield try_rows, it


def try_all(chosen):
    """Tries crates side by side: JOBS of them, or as many as there are processors and memory for at the start."""
    fitting = max(1, min(len(os.sched_getaffinity(0)), memory() // KILOBYTES_A_RUN))
    tally, most = Tally(), int(os.environ.get("JOBS", fitting))
    with tempfile.TemporaryDirectory(prefix="tbc-trials-") as room, ThreadPoolExecutor(most) as pool:
        done = [pool.submit(work, tally, Path(room) / str(at), what) for at, (work, what) in enumerate(works(chosen))]
        for it in done:
            it.result()
    return tally


# The campaign.


def prove(chosen):
    """Has the gate prove and try these crates, as they are, in a copy of everything. The status."""
    with tempfile.TemporaryDirectory(prefix="tbc-trials-") as room:
        room = Path(room)
        shutil.copytree(TOP / "crates", room / "crates", ignore=shutil.ignore_patterns("out"))
        for it in trial_copy.crates((TRIALS / "list.txt").read_text()):
            as_crate(it, room / "crates" / it, ["src", "specs", "proofs", "data", "stdin", "stdout"])
        (room / "crates.txt").write_text((TOP / "crates.txt").read_text() + (TRIALS / "list.txt").read_text())
        shutil.copy(TOP / "HANDLES", room)
        return subprocess.run(["rt", "ci", *chosen], cwd=room).returncode


def main(words):
    proves = words[:1] == ["--prove"]
    chosen, known = words[proves:], names()
    if set(chosen) - set(known):
        sys.exit(f"trials: there is none of these in trials/: {' '.join(it for it in chosen if it not in known)}")
    if proves:
        return prove(chosen or known)
    tally = try_all([it for it in known if not chosen or it in chosen])
    print(f"{tally.passed} passed, {tally.failed} failed")
    return 1 if tally.failed else 0


if __name__ == "__main__":
    sys.exit(main(sys.argv[1:]))
