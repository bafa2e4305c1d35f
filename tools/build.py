#!/usr/bin/env python3
"""Proves the crates that the program is made of, from below, and builds it. Each crate stays in its crates/NAME/out, so a
build that was broken off goes on there. Crates of which none is above another are proved side by side: RT_JOBS of them, or
as many as there are processors and memory for.

A library is proved from nothing and keeps its statements alone, as those of rt ci do: they take half the memory of whole
libraries to read. One that rt check left work of is proved over that work, and kept whole, as rt lib leaves it. What rt ci
proved on this machine, of the same files over the same libraries, is taken from there.

    tools/build.py

What is said of a crate comes at once when it is done, and then `rt: NAME proved`, `rt: NAME is kept` or `rt: NAME NOT
PROVED`. The status is 1 if one was not proved; those above it are left out."""
import importlib.machinery
import importlib.util
import os
import shutil
import signal
import sys
import tempfile
import threading
from pathlib import Path

sys.dont_write_bytecode = True
ROOT = Path(__file__).resolve().parent.parent
KIT = Path(shutil.which("rt")).resolve().parent.parent
PRINTING = threading.Lock()


def toolchain():
    """The toolchain's own script, which knows crates, what they take, and how to run them side by side."""
    loader = importlib.machinery.SourceFileLoader("rt", str(KIT / "bin/rt"))
    made = importlib.util.module_from_spec(importlib.util.spec_from_loader("rt", loader))
    sys.modules["rt"] = made
    loader.exec_module(made)
    return made


def once(method):
    """A method of crates without an argument that asks those below: in one call, each crate is asked once."""
    asked = threading.local()

    def ask(crate):
        is_first = not hasattr(asked, "answers")
        if is_first:
            asked.answers = {}
        try:
            if crate.folder not in asked.answers:
                asked.answers[crate.folder] = method(crate)
            return asked.answers[crate.folder]
        finally:
            if is_first:
                del asked.answers

    return ask


rt = toolchain()
rtlib = rt.rtlib
# Without this they ask a crate as often as there are ways to it, which takes minutes.
rtlib.Crate.below = once(rtlib.Crate.below)
rtlib.Crate.stamp = once(rtlib.Crate.stamp)


def proves(crate, jobs):
    """Proves a crate and builds it; the program is started, too. Returns the toolchain's status."""
    os.makedirs(f"{crate.folder}/out", exist_ok=True)
    flags = ["--jobs", str(jobs)]
    if crate.is_program:
        return crate.run(flags, ["--version"])
    if crate.has_kept():
        return crate.build_rlib(flags, anew=False)
    return crate.build_rlib([*flags, "--statements"], anew=True)


def is_taken(crate, kept):
    """Whether rt ci proved the same on this machine; then what it made is taken."""
    key = kept.key(crate)
    if crate.has_kept() or not kept.at or not os.path.isdir(kept.place(crate, False, key)):
        return False
    shutil.rmtree(f"{crate.folder}/out/rlib", ignore_errors=True)  # a file there may be a second name of one that is kept
    for it in kept.made(crate, False):
        os.remove(f"{crate.folder}/out/{it}")
    if not kept.give(crate, False, key):
        return False
    if not crate.is_program:
        Path(f"{crate.folder}/out/rlib/stamp").write_text(crate.stamp(), encoding="utf-8")
    return True


def says_kept(crate, kept, by):
    """Says that a crate need not be proved, since this proved it before."""
    kept.is_built(crate)
    with PRINTING:
        print(f"rt: {crate.name} is kept: {by} proved the same", flush=True)
    return True


def step(crate, kept, given, jobs):
    """What is done once all crates below one are. Returns whether it is proved."""
    if not all(given[it.name] for it in crate.below()):
        return False
    if not crate.is_program and crate.is_built():
        return says_kept(crate, kept, "an earlier build")
    if is_taken(crate, kept):
        return says_kept(crate, kept, "rt ci")
    with tempfile.TemporaryFile("a+", errors="replace") as crate.out:
        try:
            status = proves(crate, jobs)
            if status == -signal.SIGKILL:
                print("rt: the check was killed, most likely for memory: once more", file=crate.out, flush=True)
                status = proves(crate, 1)
        except SystemExit:
            status = 1
        kept.is_built(crate)
        crate.out.seek(0)
        with PRINTING:
            print(f"== {crate.name}\n{crate.out.read()}rt: {crate.name} {'NOT PROVED' if status else 'proved'}", flush=True)
    return not status


def main():
    os.chdir(ROOT)
    rtlib.guarded()  # its first call sets a signal's handler, which only the main thread may
    program = rtlib.Crate(f"{ROOT}/crates/tbc", str(ROOT), {})
    program.held = []  # what it gives free before it starts: this run holds its locks to the end
    crates = [*program.below(), program]
    held = rtlib.lock(crates)
    rt.Crate.allowed = rt.handles_of(ROOT)
    kept = rt.Kept(crates)
    call = lambda crate: lambda given, jobs: step(crate, kept, given, jobs)
    tasks = {it.name: ([below.name for below in it.below()], it.count(rb"\n"), rt.need(it), call(it)) for it in crates}
    given = rt.in_lanes(tasks)
    for it in held:
        os.close(it)
    return 0 if all(given.values()) else 1


if __name__ == "__main__":
    sys.exit(main())
