"""Copies of the repository in which the program is built, so that `./tbc` takes it as fresh: what `./tbc --build` starts
there only copies the program that is there."""
import shutil
import subprocess
import sys
from pathlib import Path

ROOT = Path(__file__).resolve().parent.parent
PROGRAM = ROOT / "crates/tbc/out/tbc"


def built_copy(room):
    """A copy of what `./tbc` and the README's tour need, in a folder that is there; its folder bin has an rt that does
    nothing."""
    shutil.copytree(ROOT / "examples", room / "examples")
    shutil.copytree(ROOT / "crates", room / "crates", ignore=shutil.ignore_patterns("out", "proofs", "must-fail", "wrong", "controls"))
    (room / "tools").mkdir()
    for name in ("tbc", "crates.txt", "HANDLES", "README.md", "tools/help.txt"):
        shutil.copy(ROOT / name, room / name)
    (room / "bin").mkdir(exist_ok=True)
    (room / "tools/build.py").write_text(f"import shutil\nshutil.copy({str(PROGRAM)!r}, {str(room / 'crates/tbc/out/tbc')!r})\n")
    (room / "bin/rt").write_text("#!/bin/sh\n")
    (room / "bin/rt").chmod(0o755)
    (room / "bin/python3").symlink_to(sys.executable)
    subprocess.run([room / "tbc", "--build"], env={"PATH": f"{room}/bin:/usr/bin:/bin"}, check=True, capture_output=True)
    return room
