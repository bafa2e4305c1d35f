#!/usr/bin/env python3
"""Takes the tour of README.md: runs each of its commands, once with `./tbc` of this repository, once with the `tbc`
that tools/pack/package.sh packs, in the folder of the packed documents. Each must end with status 0, or wait for a key
(status 6). What shows the machine's screen has a pseudo-terminal. The emulator is a stand-in; the packed program has no
command of that name, and leaves it out. Prints what differs."""
import re
import shlex
import subprocess
import sys
import tempfile
from pathlib import Path

sys.path.insert(0, str(Path(__file__).resolve().parents[1]))
sys.dont_write_bytecode = True
from built_copy import PROGRAM, ROOT, built_copy


def tour(readme):
    block = re.search(r"^## A tour\n.*?^```\n(.*?)^```$", readme.read_text(), re.M | re.S)[1]
    return block.splitlines()


def at_terminal(command):
    """What runs a command: at a pseudo-terminal, with its errors beside that, if it shows the machine's screen."""
    if "--screen" not in command:
        return command
    within = f"{{ {command}\n}} 2>\"$said\""
    return f"said=said.$$ script -qec {shlex.quote(within)} /dev/null"


def taken(commands, where, path):
    """The commands that end in another way, with what they say."""
    lines = [f"{{ {at_terminal(it)}\n}} </dev/null >shown.$$ 2>said.$$; tell $? {at}" for at, it in enumerate(commands)]
    tell = 'tell() { case $1:$(<said.$$) in 0:* | 6:*"waits for a key") ;; *) echo "$2 $1 $(head -c 300 said.$$)" ;; esac; }'
    script = "\n".join([tell, *lines, 'rm -rf "$T" shown.$$ said.$$'])
    ran = subprocess.run(["bash", "-c", script], cwd=where, env={"PATH": path, "HOME": str(where), "LANG": "C.UTF-8"}, capture_output=True, text=True)
    rows = [it.split(" ", 2) for it in ran.stdout.splitlines()]
    bad = [f"{commands[int(at)]}: status {status} {said}" for at, status, said in rows]
    return bad + ([ran.stderr] if ran.stderr or ran.returncode else [])


def package(room):
    """The folder of the documents in a root that the package is unpacked in."""
    subprocess.run([ROOT / "tools/pack/package.sh", room], check=True, capture_output=True)
    subprocess.run(["dpkg-deb", "-x", *room.glob("*.deb"), room / "root"], check=True)
    return room / "root/usr/share/doc/tbc"


def main():
    if not PROGRAM.exists():
        sys.exit("build the program first: ./tbc --build")
    count, bad = 0, []
    with tempfile.TemporaryDirectory(prefix="tour-") as folder:
        first, second = Path(folder) / "repository", Path(folder) / "package"
        (first / "bin").mkdir(parents=True)
        emulator = first / "bin/x64sc"
        emulator.write_text("#!/bin/sh\n")
        emulator.chmod(0o755)
        system = "/usr/bin:/bin"
        commands = tour(built_copy(first) / "README.md")
        bad += [f"in the repository: {it}" for it in taken(commands, first, f"{first}/bin:{system}")]
        count += len(commands)
        where = package(second)
        commands = [it.replace("./tbc ", "tbc ") for it in tour(where / "README.md") if "./tbc vice" not in it]
        bad += [f"of the package: {it}" for it in taken(commands, where, f"{second}/root/usr/bin:{system}")]
        count += len(commands)
    print("\n".join([*bad, f"the tour: {count} commands, {len(bad)} other than they should be"]))
    return 1 if bad else 0


sys.exit(main())
