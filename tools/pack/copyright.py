#!/usr/bin/env python3
"""Writes COPYRIGHT, which is the package's copyright file in Debian's form: the licences of this repository, and those of
the toolchain's crates that the program has in it. Which these are is read from crates.txt and from the kit's libraries,
and their licences from the kit's sources.

    tools/pack/copyright.py            writes the file
    tools/pack/copyright.py --check    compares it, says if it differs, and then ends with status 1"""
import re
import shutil
import sys
from pathlib import Path

ROOT = Path(__file__).resolve().parents[2]
KIT = Path(shutil.which("rt") or sys.exit("copyright: the command rt is not there")).resolve().parent.parent
PAGE = ROOT / "COPYRIGHT"

HEAD = """Format: https://www.debian.org/doc/packaging-manuals/copyright-format/1.0/
Upstream-Name: tbc
Comment:
 What tbc makes of a source belongs to whoever has the source, and to nobody
 else: the maintainers claim nothing in it, the routine block that is in each
 program included. This goes for PRG files, listings, disk images and all else
 that it writes.

Files: *
Copyright: 2026 Hakvorn maintainers
License: Expat or Apache-2.0
"""

APACHE = """License: Apache-2.0
 The text is LICENSE-APACHE in the repository and the archive; on Debian it is
 /usr/share/common-licenses/Apache-2.0, and else it is at
 https://www.apache.org/licenses/LICENSE-2.0
"""

UNSTATED = """License: unstated
 These are the toolchain's own libraries, parts of which each program has that
 it builds. The kit has no text on their licence.
"""


def needs():
    """What each crate of this repository needs."""
    rows = [line.split(":") for line in (ROOT / "crates.txt").read_text().splitlines() if re.match(r"tb\w*:", line)]
    return {name: words.split() for name, words in rows}


def linked():
    """The crates of the kit that the program has in it."""
    ours, found, waiting = needs(), set(), ["tbc"]
    while waiting:
        name = waiting.pop()
        if name in found:
            continue
        found.add(name)
        waiting += ours[name] if name in ours else re.findall(r"^dep (\w+)$", (KIT / f"rlibs/{name}.rlib/format").read_text(), re.M)
    return sorted(found - set(ours))


def kind(text):
    """Which licence a text is."""
    if "Apache License" in text:
        return "Apache-2.0"
    if "Redistributions in binary form" in text:
        return "BSD-3-clause"
    return "Expat" if "Permission is hereby granted" in text else sys.exit("copyright: an unknown licence:\n" + text)


def indented(text):
    return "\n".join(f" {line.rstrip()}" if line.strip() else " ." for line in text.strip().splitlines()) + "\n"


def part(name, texts):
    """The part of a crate with licences, by the names of their files. Two files that are named after their licences are a choice."""
    holders = [line.strip() for text in texts.values() for line in text.splitlines() if re.match(r"\s*Copyright (?:\(c\)|©|\d)", line)]
    holders = [re.sub(r"^Copyright (?:\(c\)|©)?\s*", "", it) for it in holders if "[yyyy]" not in it]
    kinds = [kind(text) for text in texts.values()]
    joined = " or " if "LICENSE-MIT" in texts else " and "
    crate = re.search(r"[Cc]rate `([\w-]+)` (\d[\d.]*\d)", (KIT / "rattle" / name / "README.md").read_text())
    about = f"Comment: after the Rust crate {crate[1]} {crate[2]}\n" if crate else ""
    authors = f"the authors of the Rust crate {crate[1] if crate else name}"
    named = [it if re.search("[a-z]", it) else f"{it} {authors}" for it in holders]
    copyrights = "\n ".join(dict.fromkeys(named)) or authors
    return f"Files: rattle/{name}/*\nCopyright: {copyrights}\nLicense: {joined.join(sorted(kinds, reverse=True))}\n{about}"


def page():
    texts = {name: {it.name: it.read_text() for it in sorted((KIT / "rattle" / name).glob("LICENSE*"))} for name in linked()}
    bare = [name for name, its in texts.items() if not its]
    without = "Files:" + "".join(f"\n rattle/{name}/*" for name in bare) + "\nCopyright: the makers of the Rattle toolchain\nLicense: unstated\n"
    bsd = next(text for its in texts.values() for text in its.values() if kind(text) == "BSD-3-clause")
    licences = [
        "License: Expat\n" + indented((ROOT / "LICENSE-MIT").read_text().split("\n\n", 2)[2]),
        APACHE,
        "License: BSD-3-clause\n" + indented(bsd.split("\n\n", 1)[1]),
        UNSTATED,
    ]
    return "\n".join([HEAD, *(part(name, its) for name, its in texts.items() if its), without, *licences])


def main(words):
    if words != ["--check"]:
        PAGE.write_text(page())
    elif PAGE.read_text() != page():
        sys.exit("copyright: COPYRIGHT is not what tools/pack/copyright.py writes")


main(sys.argv[1:])
