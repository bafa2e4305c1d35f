#!/usr/bin/env python3
"""Runs a program on a machine that is not this project's, and compares each byte that it sends, and how it ends.

    foreign_run.py sim65|vice|watched SERVICES PRG KEYS WANTED STATUS

SERVICES is the PRG that `tbc asm` made of sim65.asm or kernal.asm, KEYS what is typed, in hexadecimal digits. WANTED is
what `tbc run` showed, and STATUS its status: 0 where the program returned, 6 where it waits for a key. `watched` is VICE
with the watch file next to the PRG, PRG.watch: where its monitor stops, that differs. Ends with status 0 where all is the
same, with 1 where something differs, with 2 where the machine doesn't start.
"""
import os
import re
import subprocess
import sys
import tempfile

RETURNED = 0
WAITS = 6
SECONDS = 300
MOST_SENT = 0xFFFF  # bytes: the length is a word in the expansion that VICE's services read


def word(value):
    return bytes((value & 0xFF, value >> 8))


def contents(path):
    with open(path, "rb") as file:
        return file.read()


def sent(shown):
    """The bytes whose host form is shown."""
    return re.sub(rb"\n|\{(..)\}", lambda it: bytes.fromhex(it[1].decode()) if it[1] else b"\r", shown)


def put(memory, at, those):
    memory[at:at + len(those)] = those


def jump(at):
    return b"\x4c" + word(at)


def loaded(memory, prg):
    put(memory, prg[0] + 256 * prg[1], prg[2:])


def in_sim65(folder, services, prg, keys, wanted, status):
    memory = bytearray(0xFFF4)
    loaded(memory, services)
    loaded(memory, prg)
    for service, entry in ((0xFFD2, 0xA003), (0xFFCF, 0xA006), (0xFFE4, 0xA009)):
        put(memory, service, jump(entry))
    image = os.path.join(folder, "image")
    with open(image, "wb") as file:
        file.write(b"sim65\x02\x00\x00" + word(0x0000) + word(0xA000) + memory)
    ran = subprocess.run(["sim65", image], input=keys, capture_output=True, timeout=SECONDS)
    if ran.returncode not in (RETURNED, WAITS):
        return f"status {ran.returncode}, {ran.stderr.decode().strip()}"
    if ran.returncode != status:
        return f"status {ran.returncode}, wanted {status}"
    if ran.stdout != wanted:
        same = len(os.path.commonprefix((ran.stdout, wanted)))
        return f"another byte behind the first {same} of {len(wanted)}"
    return None


VICE = {1: "another byte", 2: "too many bytes", 3: "it waits", 4: "too few bytes", 5: "it returned"}
RESET, IRQ, NMI = 0xFCE2, 0xFF48, 0xFE43  # where the Commodore's ROM has them
ENTRIES = {RESET: 0xE000, 0xFFD2: 0xE003, 0xFFCF: 0xE006, 0xFFE4: 0xE009, IRQ: 0xE00C, NMI: 0xE00F}
WATCHING = "-nativemonitor -moncommands watch -monlog -monlogname said".split()


def stop(said):
    """What the monitor says where it stops, if it does; or that it did not watch."""
    found = re.search(r"^#\d+ \(Stop on .*\n.*\n(?:Executing: ; )?(.*)", said, re.M)
    if found:
        return f"stopped: {found[1]}"
    return None if "(Trace  exec 0c00)" in said else "it was not watched"


def in_vice(folder, services, prg, keys, wanted, status, watch=None):
    rom = bytearray(0x2000)
    put(rom, 0, services[2:])
    for place, entry in ENTRIES.items():
        put(rom, place - 0xE000, jump(entry))
    put(rom, 0x1FFA, word(NMI) + word(RESET) + word(IRQ))
    expansion = bytearray(0x40000)
    put(expansion, 0x00000, word(len(prg) - 2) + word(len(wanted)) + word(len(keys)) + bytes((status == WAITS,)))
    put(expansion, 0x00100, prg[2:])
    put(expansion, 0x10000, wanted)
    put(expansion, 0x20000, keys)
    files = {"kernal": rom, "basic": bytes(0x2000), "chargen": bytes(0x1000), "expansion": expansion}
    for name, those in files.items():
        with open(os.path.join(folder, name), "wb") as file:
            file.write(those)
    words = "x64sc -default -console -warp +sound -debugcart -limitcycles 400000000 -drive8type 0 -kernal kernal -basic basic"
    words = (words + " -chargen chargen -reu -reusize 256 -reuimage expansion +reuimagerw").split()
    if watch is not None:
        with open(os.path.join(folder, "watch"), "wb") as file:
            file.write(watch)
        words += WATCHING
    ran = subprocess.run(words, cwd=folder, capture_output=True, timeout=SECONDS, input=b"quit\n")
    stopped = None if watch is None else stop(contents(os.path.join(folder, "said")).decode(errors="replace"))
    if stopped or ran.returncode == 0:
        return stopped
    if b"cycle limit reached" in ran.stdout:  # the status is that of another byte then
        return "it doesn't end"
    said = ran.stderr.decode(errors="replace")[-300:] + ran.stdout.decode(errors="replace")[-300:]
    return VICE.get(ran.returncode, f"x64sc ended with status {ran.returncode}: {said}")


RUNS = {"sim65": in_sim65, "vice": in_vice, "watched": in_vice}


def main(machine, services, prg, keys, wanted, status):
    watch = [contents(prg.removesuffix("prg") + "watch")] if machine == "watched" else []
    with tempfile.TemporaryDirectory() as folder:
        differs = RUNS[machine](folder, contents(services), contents(prg), bytes.fromhex(keys), sent(contents(wanted)), int(status), *watch)
    if differs is not None:
        print(f"{os.path.basename(prg)} in {machine}: {differs}")
    return differs is not None


if __name__ == "__main__":
    sys.exit(main(*sys.argv[1:]))
