#!/usr/bin/env python3
"""Prints a document of the repository as the package has it: tools/pack/installed_document.py FILE. A link to a file that the
package doesn't have, as to a crate, becomes its text. The package has README, the documents, their pictures and the
examples."""
import re
import sys
from pathlib import Path

ROOT = Path(__file__).resolve().parents[2]
INSTALLED = re.compile(r"README\.md|docs/[^/]*\.md|docs/pictures/.*|examples/.*")


def main(name):
    document = Path(name).resolve()

    def linked(found):
        target = (document.parent / found[2].split("#")[0]).resolve()
        is_there = found[2].startswith(("http", "#")) or INSTALLED.fullmatch(str(target.relative_to(ROOT)))
        return found[0] if is_there else found[1]

    print(re.sub(r"(?<!!)\[([^\]]*)\]\(([^)\s]+)\)", linked, document.read_text()), end="")


main(*sys.argv[1:])
