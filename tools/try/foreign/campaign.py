#!/usr/bin/env python3
"""A campaign of trials against machines that are not this project's, until its time is over: tools/try/campaign.sh starts it.

    campaign.py TBC TRIALS SIM65 VICE SEED MINUTES KEPT [PROGRAMS PRGS]

TBC and TRIALS are the programs `tbc` and `tb_tools_bench`, SIM65 and VICE the PRGs of the services that `tbc asm` made of
sim65.asm and kernal.asm; VICE is `-` where x64sc is not there. Each round makes programs in Tiny BASIC and random PRGs of
64 bytes from its own seed. A program is compiled and run here by a quiet ROM; beside two hostile ones, in sim65 and in
VICE it must send the same bytes and end the same way; one that runs too long, or sends more bytes than VICE's services can
compare, is only counted. A random PRG must leave the same registers and memory in sim65.
Whatever differs is kept in a folder of KEPT, with the command that repeats it. With PROGRAMS and PRGS it ends as soon as
there are so many of each; `-` is without a limit.
"""
import os
import random
import subprocess
import sys
import tempfile
import time
from concurrent.futures import ThreadPoolExecutor
from pathlib import Path

import dividing_programs
import foreign_run
import looping_programs
import mixed_programs
import random_programs

HERE = Path(__file__).resolve().parent
KINDS = (("mixed", mixed_programs.program, 4), ("dividing", dividing_programs.program, 2),
         ("looping", lambda chance: (looping_programs.program(chance), ""), 1))
PROGRAMS_A_ROUND = 100
PRGS_A_ROUND = 2000
EVENTS = 3_000_000
RUDE = 2
RETURNED, STEP_LIMIT, WAITS = 0, 5, 6
TOLD_EACH = 60  # seconds


class Campaign:
    def __init__(self, tbc, trials, sim65, vice, seed, kept):
        self.tbc, self.trials, self.seed, self.kept = tbc, trials, seed, Path(kept)
        self.machines = [("sim65", sim65)] + ([] if vice == "-" else [("vice", vice)])
        self.services = {machine: foreign_run.contents(file) for machine, file in self.machines}
        self.counts = {}
        self.differing = 0
        self.base = random_programs.base_memories()

    def count(self, what, number=1):
        self.counts[what] = self.counts.get(what, 0) + number

    def wants(self, what, most):
        return most == "-" or self.counts.get(what, 0) < int(most)

    def keep(self, name, files, command, what):
        """Keeps what differs: its files, and a script that repeats it."""
        self.differing += 1
        folder = self.kept / name
        folder.mkdir(parents=True, exist_ok=True)
        for file, those in files.items():
            (folder / file).write_bytes(those)
        script = folder / "repeat.sh"
        script.write_text(f'#!/usr/bin/env bash\n# {what}\ncd "$(dirname "$0")"\n{command}\n')
        script.chmod(0o755)
        print(f"{what}: {script}", flush=True)

    def run(self, prg, keys, *words):
        ran = subprocess.run([self.tbc, "run", "--prg", prg, "--keys", keys.encode().hex(), "--limit", str(EVENTS), *words],
                             capture_output=True)
        return ran.stdout, ran.returncode

    def compare(self, name, files, keys, shown, status, folder):
        """What is sent, beside hostile ROMs and on the other machines."""
        prg = os.path.join(folder, "it.prg")
        for rude in random.Random(name).sample(range(65536), RUDE):
            sent, ended = self.run(prg, keys, "--rude", str(rude))
            # A hostile ROM makes events too, so the limit may come before the end: then a prefix is sent.
            if (sent, ended) != (shown, status) and not (ended == STEP_LIMIT and shown.startswith(sent)):
                command = f"{self.tbc} run --prg it.prg --keys {keys.encode().hex()} --rude {rude} | cmp - wanted"
                self.keep(f"{name}-rude{rude}", files, command, f"{name} beside a hostile ROM")
            self.count("beside a hostile ROM")
        for machine, file in self.machines:
            run, services = foreign_run.RUNS[machine], self.services[machine]
            differs = run(folder, services, files["it.prg"], keys.encode(), foreign_run.sent(shown), status)
            self.count("in " + machine)
            if differs:
                command = f"python3 {HERE}/foreign_run.py {machine} services.prg it.prg '{keys.encode().hex()}' wanted {status}"
                self.keep(f"{name}-{machine}", files | {"services.prg": services}, command, f"{name}: {differs}")

    def program(self, name, source, keys):
        """One program in Tiny BASIC."""
        with tempfile.TemporaryDirectory() as folder:
            bas, prg = os.path.join(folder, "it.bas"), os.path.join(folder, "it.prg")
            Path(bas).write_text(source)
            built = subprocess.run([self.tbc, "build", "--fit", bas, prg], capture_output=True)
            self.count("programs")
            if built.returncode != 0:
                self.keep(name, {"it.bas": source.encode()}, f"{self.tbc} build --fit it.bas it.prg",
                          f"{name} is not built: {built.stderr.decode().strip()}")
                return
            shown, status = self.run(prg, keys)
            if status == STEP_LIMIT or len(foreign_run.sent(shown)) > foreign_run.MOST_SENT:
                self.count("too long")
                return
            files = {"it.bas": source.encode(), "it.prg": Path(prg).read_bytes(), "wanted": shown}
            if status not in (RETURNED, WAITS):
                self.keep(name, files, f"{self.tbc} run --prg it.prg --keys '{keys.encode().hex()}'", f"{name} ends with status {status}")
                return
            self.compare(name, files, keys, shown, status, folder)

    def misses_wrong_bytes(self):
        """The negative cases: machines that don't find a wrong byte, in what a program sends or in memory."""
        with tempfile.TemporaryDirectory() as folder:
            bas, prg = os.path.join(folder, "it.bas"), os.path.join(folder, "it.prg")
            Path(bas).write_text('10 PRINT "A"\n20 END\n')
            subprocess.run([self.tbc, "build", bas, prg], check=True)
            missed = [machine for machine, _ in self.machines
                      if not foreign_run.RUNS[machine](folder, self.services[machine], Path(prg).read_bytes(), b"", b"B\r", RETURNED)]
            chance = random.Random(6502)
            records = [random_programs.record(chance) for _ in range(PROGRAMS_A_ROUND)]
            compared, _ = random_programs.sorted_out(records, random_programs.own_lines(self.trials, records))
            if not random_programs.finds_a_wrong_byte(self.base, folder, *compared[0]):
                missed.append("memory")
        return missed

    def programs(self, pool, number):
        """The programs of a round."""
        chance = random.Random(f"{self.seed} {number}")
        made = []
        for index in range(PROGRAMS_A_ROUND):
            kind, make, _ = chance.choices(KINDS, [weight for _, _, weight in KINDS])[0]
            made.append((f"{self.seed}-{number}-{kind}{index}", *make(chance)))
        list(pool.map(lambda one: self.program(*one), made))

    def prgs(self, pool, number):
        """The random PRGs of a round."""
        chance = random.Random(f"{self.seed} {number} PRG")
        records = [random_programs.record(chance) for _ in range(PRGS_A_ROUND)]
        compared, _ = random_programs.sorted_out(records, random_programs.own_lines(self.trials, records))
        self.count("random PRGs", len(records))
        self.count("of them compared", len(compared))
        with tempfile.TemporaryDirectory() as folder:
            differing = random_programs.differences(pool, folder, self.base, compared)
        for index, (it, state, their) in enumerate(differing):
            self.keep(f"{self.seed}-{number}-prg{index}", {"records": it}, f"python3 {HERE}/random_programs.py {self.trials} records",
                      f"a random PRG ends as {state} here and as {their} in sim65")

    def told(self):
        return ", ".join(f"{number} {what}" for what, number in self.counts.items()) + f"; {self.differing} differences"


def main(tbc, trials, sim65, vice, seed, minutes, kept, programs="-", prgs="-"):
    campaign = Campaign(tbc, trials, sim65, vice, seed, kept)
    missed = campaign.misses_wrong_bytes()
    if missed:
        print(f"a wrong byte is not found: {missed}")
        return True
    end = time.monotonic() + 60 * float(minutes)
    told = time.monotonic()
    number = 0
    with ThreadPoolExecutor(int(os.environ.get("JOBS") or os.cpu_count())) as pool:
        while time.monotonic() < end:
            number += 1
            wants_programs = campaign.wants("programs", programs)
            wants_prgs = campaign.wants("random PRGs", prgs)
            if not wants_programs and not wants_prgs:
                break
            if wants_programs:
                campaign.programs(pool, number)
            if wants_prgs:
                campaign.prgs(pool, number)
            if time.monotonic() > told + TOLD_EACH:
                told = time.monotonic()
                print(campaign.told(), flush=True)
    print(campaign.told())
    return campaign.differing != 0


if __name__ == "__main__":
    sys.exit(main(*sys.argv[1:]))
