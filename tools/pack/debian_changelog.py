#!/usr/bin/env python3
"""Writes the releases of CHANGELOG.md in the form that Debian wants in a package, each on its day: tools/pack/debian_changelog.py"""
import re
import textwrap
from datetime import datetime, timezone
from email.utils import format_datetime
from pathlib import Path

MAINTAINER = "Hakvorn maintainers <maintainers@users.noreply.hakvorn.example>"
RELEASE = re.compile(r"^## (\d\S*) - (\d{4}-\d{2}-\d{2})\n((?:(?!## |\[).*\n?)*)", re.M)


def points(body):
    """The groups and points of a release, each as one paragraph without marks and links."""
    for part in re.split(r"\n(?=- )|\n\n", body.strip()):
        text = re.sub(r" \(\[\w+\]\)|[*`]", "", " ".join(part.split()))
        if text.startswith("- "):
            yield textwrap.fill(text, 78, initial_indent="    ", subsequent_indent="      ")
        else:
            yield textwrap.fill(text.removeprefix("### "), 78, initial_indent="  * ", subsequent_indent="    ")


def main():
    text = (Path(__file__).resolve().parents[2] / "CHANGELOG.md").read_text()
    for version, day, body in RELEASE.findall(text):
        print(f"tbc ({version}) unstable; urgency=medium\n", *points(body), sep="\n")
        print(f"\n -- {MAINTAINER}  {format_datetime(datetime.fromisoformat(day).replace(tzinfo=timezone.utc))}\n")


main()
