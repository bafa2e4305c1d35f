#!/usr/bin/env python3
"""Compares what the documents show of the program with what it does. A block of a document that begins with ```console is
typed line by line: after `$ ` comes a command, and after that what it shows. A line `..` stands for lines that are left
out. The commands run in a folder with the examples, where `tbc` is the built program. Prints what differs.

    tools/compare/samples.py [DOCUMENT..]"""
import os
import re
import shutil
import subprocess
import sys
import tempfile
from pathlib import Path

ROOT = Path(__file__).resolve().parents[2]
PROGRAM = ROOT / "crates/tbc/out/tbc"
BLOCK = re.compile(r"^```console\n(.*?)^```$", re.M | re.S)


def commands(block):
    """The commands of a block, each with the lines that it is to show."""
    found = []
    for line in block.splitlines():
        if line.startswith("$ "):
            found.append((line[2:], []))
        else:
            found[-1][1].append(line)
    return found


def matches(wanted, shown):
    """Whether lines are shown, where `..` stands for any number of lines."""
    if not wanted:
        return not shown
    if wanted[0] == "..":
        return any(matches(wanted[1:], shown[at:]) for at in range(len(shown) + 1))
    return bool(shown) and wanted[0] == shown[0] and matches(wanted[1:], shown[1:])


def differences(document, room):
    """What the document shows otherwise than the program does, and how many commands it has."""
    count, bad = 0, []
    path = f"{room}/bin:{os.environ['PATH']}"
    for block in BLOCK.findall(document.read_text()):
        for command, wanted in commands(block):
            count += 1
            ran = subprocess.run(["bash", "-c", command], cwd=room, env={**os.environ, "PATH": path}, capture_output=True, text=True)
            shown = [it.rstrip() for it in (ran.stdout + ran.stderr).splitlines()]
            if not matches([it.rstrip() for it in wanted], shown):
                bad.append("\n".join([f"{document.relative_to(ROOT)}: $ {command}", *shown[:40]]))
    return count, bad


def main():
    if not PROGRAM.exists():
        sys.exit("build the program first: ./tbc --build")
    documents = [Path(it).resolve() for it in sys.argv[1:]] or [ROOT / "README.md", *sorted(ROOT.glob("docs/*.md"))]
    count, bad = 0, []
    for document in documents:
        with tempfile.TemporaryDirectory(prefix="samples-") as room:
            shutil.copytree(ROOT / "examples", room, dirs_exist_ok=True)
            (Path(room) / "bin").mkdir()
            (Path(room) / "bin/tbc").symlink_to(PROGRAM)
            more, wrong = differences(document, room)
            count, bad = count + more, bad + wrong
    for it in bad:
        print(it)
    print(f"samples: {count} commands, {len(bad)} show something else")
    sys.exit(1 if bad else 0)


main()
