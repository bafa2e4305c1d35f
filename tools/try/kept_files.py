#!/usr/bin/env python3
"""Tries that no file is lost: each command and option that writes a file, with each kind of path.

    tools/try/kept_files.py [TBC]      TBC is the built program if it is missing

A way is a command with one path that it writes: OUT of build, asm, assemble, disk and page, the files of --labels,
--list, --map, --watch, --record, --transcript and --html, the source that format and renumber write with --in-place, and
the transcript that test writes with --update. A place is what that path leads to: nothing, a file, a link, a pipe, a
full disk, what looks like something else, .. Of each row the status is compared, and what each file of the folder holds
afterwards: the new text whole, or what it held before. Rows that need another file system mount one, and others run the
program as nobody. Where there are no rights to do so, these rows are left out, and that is said."""
import contextlib
import os
import resource
import shutil
import signal
import stat
import subprocess
import sys
import tempfile
import threading
from contextlib import contextmanager
from pathlib import Path

sys.path.insert(0, str(Path(__file__).resolve().parents[1]))
sys.dont_write_bytecode = True
from built_copy import PROGRAM

OTHER = b"10 PRINT 1\n" * 300  # what no command writes
PICTURE = b"\x89PNG\r\n\x1a\n" + bytes(400)  # nor this
PRG = b"\x01\x08\x0b\x08\x0a\x00\x9e2061\x00\x00\x00"  # a PRG file of a source begins so
CODE = b"\x00\xc0\x60"  # and one of a text at $C000 so
MOVED = b"\x00\x80\x60"  # and at $8000 so
UNTIDY = b'20 print"A"\n10 REM B\n'  # a source that format and renumber change
UNTRUE = b"GOODBYE\n"  # a transcript that the source does not give
SOURCE = '10 PRINT "HELLO"\n20 END\n'
ASKS = "10 INPUT A\n20 END\n"
TEXT = "LDA #$41\nJSR $FFD2\nRTS\n"
LINES = ".org $C000\nstart: lda #$41\njsr $ffd2\nrts\n"

# Each way: its name, and its words, with OUT for the path.
WAYS = [
    ("build OUT", ["build", "in.bas", "OUT"]),
    ("build -o", ["build", "in.bas", "-o", "OUT"]),
    ("build --labels", ["build", "in.bas", "other.prg", "--labels", "OUT"]),
    ("build --list", ["build", "in.bas", "other.prg", "--list", "OUT"]),
    ("build --map", ["build", "in.bas", "other.prg", "--map", "OUT"]),
    ("build --watch", ["build", "in.bas", "other.prg", "--watch", "OUT"]),
    ("asm OUT", ["asm", "in.s", "OUT", "--at", "c000"]),
    ("assemble OUT", ["assemble", "in.asm", "OUT"]),
    ("assemble --labels", ["assemble", "in.asm", "other.prg", "--labels", "OUT"]),
    ("assemble --list", ["assemble", "in.asm", "other.prg", "--list", "OUT"]),
    ("disk OUT", ["disk", "OUT", "in.prg"]),
    ("play --record", ["play", "in.ask.bas", "--record", "OUT"]),
    ("play --transcript", ["play", "in.ask.bas", "--transcript", "OUT"]),
    ("test --html", ["test", "in.bas", "--lines", "--html", "OUT"]),
    ("profile --html", ["profile", "in.bas", "--html", "OUT"]),
    ("page OUT", ["page", "in.bas", "OUT"]),
    ("page --prg", ["page", "--prg", "in.prg", "-o", "OUT"]),
    ("format --in-place", ["format", "--in-place", "OUT"]),
    ("renumber --in-place", ["renumber", "--in-place", "OUT"]),
    ("test --update", ["test", "--update", "OUT"]),
]
failed = rows = left_out = 0


def is_in_place(words):
    return "--in-place" in words or "--update" in words


def name_of(words):
    """The name of what is written, as this command takes it."""
    if words[0] == "test" and is_in_place(words):
        return "in_place.transcript"
    return "out.d64" if words[0] == "disk" else "in_place.bas" if is_in_place(words) else "out.file"


def run(tbc, words, path, folder, **how):
    words = [str(path) if word == "OUT" else word for word in words]
    done = subprocess.run([tbc, *words], cwd=folder, input=b"7\n", capture_output=True, timeout=120, **how)
    return done.returncode


def limited():
    """No file may grow past 64 bytes; who tries is told, not killed."""
    signal.signal(signal.SIGXFSZ, signal.SIG_IGN)
    resource.setrlimit(resource.RLIMIT_FSIZE, (64, 64))


def limited_and_killed():
    """No file may grow past 64 bytes; who tries is killed."""
    resource.setrlimit(resource.RLIMIT_FSIZE, (64, 64))
    resource.setrlimit(resource.RLIMIT_CORE, (0, 0))


def as_nobody():
    os.setgroups([])
    os.setgid(65534)
    os.setuid(65534)


def filled(folder):
    """A folder with what the commands read."""
    folder.mkdir(exist_ok=True)
    for name, text in (("in.bas", SOURCE), ("in.transcript", "HELLO\n"), ("in.ask.bas", ASKS), ("in.s", TEXT), ("in.asm", LINES)):
        (folder / name).write_text(text)
    (folder / "in.prg").write_bytes(b"\x01\x08" + bytes(40))
    return folder


@contextmanager
def mounted(folder, *how):
    """Whether something could be mounted there, and was meanwhile."""
    global left_out
    is_there = subprocess.run(["mount", *how, folder], capture_output=True).returncode == 0
    left_out += not is_there
    try:
        yield is_there
    finally:
        if is_there:
            subprocess.run(["umount", folder], check=True)


def holds(path):
    return path.read_bytes() if path.exists() else None


def seen(folder):
    """The names in a folder, but for the program's inputs, the other output and sources beside their transcripts."""
    names = {it.name for it in folder.iterdir()}
    beside = {it.with_suffix(".bas").name for it in folder.glob("*.transcript")}
    return sorted(names - beside - {"in.bas", "in.transcript", "in.ask.bas", "in.s", "in.asm", "in.prg", "other.prg"})


def expect(way, place, what, is_so):
    global failed
    if not is_so:
        failed += 1
        print(f"{way}, {place}: {what}", flush=True)


def fill(path):
    """Writes to a file until its disk is full."""
    with contextlib.suppress(OSError), open(path, "wb") as rest:
        while rest.write(bytes(512)):
            rest.flush()


def the_new(tbc, words, top):
    """What the command writes where nothing is in its way."""
    folder = filled(top / "new")
    path = folder / name_of(words)
    if is_in_place(words):
        before(path, words, b"")
    status = run(tbc, words, path.name, folder)
    return status, holds(path)


def before(path, words, new):
    """Puts what was there before at a path: it looks like what the command writes, and is another text."""
    if words[0] == "test" and is_in_place(words):
        path.with_suffix(".bas").write_text(SOURCE)
        path.write_bytes(UNTRUE)
    elif is_in_place(words):
        path.write_bytes(UNTIDY)
    elif "--record" in words:
        path.write_bytes(b"00" + new)
    else:
        path.write_bytes(new[:-1] + bytes([new[-1] ^ 1]))
    return holds(path)


def other_prg(folder, words):
    """The PRG file that a command writes besides, as it was before."""
    (folder / "other.prg").write_bytes(CODE if words[0] == "assemble" else PRG)


def try_way(tbc, way, words, top):
    global rows, left_out
    status, new = the_new(tbc, words, top)
    expect(way, "nothing there", f"status {status}", status == 0 and new)

    def row(place):
        global rows
        rows += 1
        folder = filled(top / f"row{rows}")
        return folder, folder / name_of(words)

    # a file is replaced, with its permissions
    folder, path = row("a file")
    before(path, words, new)
    path.chmod(0o640)
    status = run(tbc, words, path.name, folder)
    mode = stat.S_IMODE(path.stat().st_mode)
    expect(way, "a file", f"status {status}, mode {mode:o}, {seen(folder)}", status == 0 and holds(path) == new and mode == 0o640 and seen(folder) == [path.name])

    # a link stays a link, and leads to the new text
    folder, path = row("a link")
    inner = folder / "inner"
    inner.mkdir()
    target = inner / path.name
    before(path, words, new)
    path.rename(target)
    path.symlink_to(f"inner/{path.name}")
    status = run(tbc, words, path.name, folder)
    expect(way, "a link", f"status {status}", status == 0 and path.is_symlink() and holds(target) == new and seen(inner) == [path.name])

    # a link that leads nowhere yet
    if not is_in_place(words):
        folder, path = row("a link to nothing")
        path.symlink_to("later")
        status = run(tbc, words, path.name, folder)
        expect(way, "a link to nothing", f"status {status}", status == 0 and path.is_symlink() and holds(folder / "later") == new)

    # another name of the file keeps what it held
    folder, path = row("another name")
    old = before(path, words, new)
    other = folder / "other name"
    os.link(path, other)
    status = run(tbc, words, path.name, folder)
    expect(way, "another name", f"status {status}", status == 0 and holds(path) == new and holds(other) == old)

    # no file may grow: who tries is told, or killed
    for place, limit in (("no room for its text", limited), ("killed while it writes", limited_and_killed)):
        folder, path = row(place)
        old = before(path, words, new)
        other_prg(folder, words)
        status = run(tbc, words, path.name, folder, preexec_fn=limit)
        kept = holds(path) == old or (status == 0 and holds(path) == new)
        left = [it for it in seen(folder) if it != path.name]
        is_clean = not left or limit is limited_and_killed
        expect(way, place, f"status {status}, {seen(folder)}", kept and is_clean and (status == 3 or holds(path) == new or limit is limited_and_killed))

    # a full disk
    folder, path = row("a full disk")
    small = folder / "small"
    small.mkdir()
    with mounted(small, "-t", "tmpfs", "-o", "size=256k", "tmpfs") as is_small:
        if is_small:
            old = before(small / path.name, words, new)
            fill(small / "rest")
            status = run(tbc, words, f"small/{path.name}", folder)
            names = seen(small)
            expect(way, "a full disk", f"status {status}, {names}", holds(small / path.name) == old and status == 3 and len(names) == 2)

    # a folder in which nobody may write
    folder, path = row("a folder without rights")
    folder.chmod(0o777)
    inner = folder / "inner"
    inner.mkdir()
    old = before(inner / path.name, words, new)
    (inner / path.name).chmod(0o666)
    inner.chmod(0o555)
    try:
        status = run(tbc, words, f"inner/{path.name}", folder, preexec_fn=as_nobody)
        expect(way, "a folder without rights", f"status {status}", status == 3 and holds(inner / path.name) == old)
    except (OSError, subprocess.SubprocessError):  # (only root can be nobody, and nobody has to reach the folder)
        left_out += 1

    # a file on which another one is mounted can't be renamed over: it is written over, with a copy beside it meanwhile
    folder, path = row("a file of another system")
    before(path, words, new)
    (folder / "behind").write_bytes(holds(path))
    with mounted(path, "--bind", folder / "behind") as is_other:
        if is_other:
            status = run(tbc, words, path.name, folder)
            expect(way, "a file of another system", f"status {status}, {seen(folder)}",
                   status == 0 and holds(path) == new and seen(folder) == sorted(["behind", path.name]))

    # the longest name that there is
    folder, path = row("a long name")
    long = folder / ("n" * (255 - len(path.suffix)) + path.suffix)
    before(long, words, new)
    status = run(tbc, words, long.name, folder)
    is_new = len(holds(long)) == len(new) if words[0] == "disk" else holds(long) == new  # (a disk is named by its path)
    expect(way, "a long name", f"status {status}, {seen(folder)}", status == 0 and is_new and seen(folder) == [long.name])

    # what is no file takes the text as a stream
    if not is_in_place(words):
        folder, path = row("a pipe")
        os.mkfifo(path)
        got = []
        reader = threading.Thread(target=lambda: got.append(path.read_bytes()))
        reader.start()
        status = run(tbc, words, path.name, folder)
        reader.join()
        expect(way, "a pipe", f"status {status}", status == 0 and got == [new] and stat.S_ISFIFO(path.stat().st_mode))

        if words[0] != "disk":
            folder, path = row("a device")
            status = run(tbc, words, "/dev/null", folder)
            expect(way, "a device", f"status {status}", status == 0 and stat.S_ISCHR(os.stat("/dev/null").st_mode))

            # sources are never written over: by name, in capitals, by a link of another name
            for name in ("kept.bas", "kept.BAS", "kept.tbas", "Kept.TBas", "kept.asm", "kept.inc", "kept.A65", "kept.s"):
                folder, path = row(name)
                (folder / name).write_bytes(OTHER)
                status = run(tbc, words, name, folder)
                expect(way, name, f"status {status}", status == 2 and holds(folder / name) == OTHER and not (folder / "other.prg").exists())
            folder, path = row("a link to a source")
            (folder / "kept.bas").write_bytes(OTHER)
            path.symlink_to("kept.bas")
            status = run(tbc, words, path.name, folder)
            expect(way, "a link to a source", f"status {status}", status == 2 and holds(folder / "kept.bas") == OTHER)
            folder, path = row("an open source")
            (folder / "kept.bas").write_bytes(OTHER)
            with open(folder / "kept.bas", "r+b") as file:
                status = run(tbc, words, f"/dev/fd/{file.fileno()}", folder, pass_fds=[file.fileno()])
            expect(way, "an open source", f"status {status}", status == 2 and holds(folder / "kept.bas") == OTHER)

        # what looks like something else stays, unless it is forced; an empty file looks like nothing
        for place, held in (("another text", OTHER), ("a picture", PICTURE)):
            folder, path = row(place)
            path.write_bytes(held)
            status = run(tbc, words, path.name, folder)
            expect(way, place, f"status {status}", status == 2 and holds(path) == held and not (folder / "other.prg").exists())
            folder, path = row(f"{place}, forced")
            path.write_bytes(held)
            status = run(tbc, [*words, "--force"], path.name, folder)
            expect(way, f"{place}, forced", f"status {status}", status == 0 and holds(path) == new)
        folder, path = row("an empty file")
        path.touch()
        status = run(tbc, words, path.name, folder)
        expect(way, "an empty file", f"status {status}", status == 0 and holds(path) == new)

        # code for another address is replaced where its name says that it is code
        for name, wanted in (("kept.prg", 0), ("kept.PRG", 0), ("kept.bin", 2)) if way in ("asm OUT", "assemble OUT") else ():
            folder, path = row(name)
            (folder / name).write_bytes(MOVED)
            status = run(tbc, words, name, folder)
            expect(way, f"another address in {name}", f"status {status}", status == wanted and holds(folder / name) == (MOVED if wanted else new))

        # what the same call reads, by a link of any kind
        read = next(word for word in words if word.startswith("in."))
        for place, link in (("a link to what is read", os.symlink), ("another name of what is read", os.link)):
            folder, path = row(place)
            old = holds(folder / read)
            link(read if link is os.symlink else folder / read, path)
            status = run(tbc, words, path.name, folder)
            expect(way, place, f"status {status}", status == 2 and holds(folder / read) == old)


def main(tbc=PROGRAM):
    with tempfile.TemporaryDirectory() as top:
        top = Path(top)
        top.chmod(0o755)
        program = Path(shutil.copy(tbc, top / "tbc"))
        for number, (way, words) in enumerate(WAYS):
            folder = top / str(number)
            folder.mkdir()
            try_way(str(program), way, words, folder)
    said = f", {left_out} left out for want of rights" if left_out else ""
    print(f"{len(WAYS)} ways to write, {rows} rows, {failed} with another end than they should have{said}")
    return failed != 0


sys.exit(main(*sys.argv[1:]))
