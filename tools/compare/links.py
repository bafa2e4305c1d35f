#!/usr/bin/env python3
"""Checks that each link of the documents to a file or to a heading has that file and heading, and each link by a name, as
`([USING])`, the name. Prints what has not.

    tools/compare/links.py [FOLDER]    of the repository, or of a folder with README and docs"""
import re
import sys
from pathlib import Path

ROOT = Path(sys.argv[1]).resolve() if sys.argv[1:] else Path(__file__).resolve().parents[2]
DOCUMENTS = [*sorted(ROOT.glob("*.md")), *sorted(ROOT.glob("docs/*.md"))]


def anchors(document):
    """The names under which a document's headings are linked to."""
    headings = re.findall(r"^#+ (.*)$", document.read_text(), re.M)
    return {re.sub(r"[^\w\- ]", "", it.lower()).replace(" ", "-") for it in headings}


def links(text):
    """The links of a text; one by a name that leads nowhere is the name itself."""
    named = dict(re.findall(r"^\[(\w+)\]: (\S+)$", text, re.M))
    return re.findall(r"\]\(([^)\s]+)\)", text) + [named.get(it, it) for it in re.findall(r"\(\[(\w+)\]\)", text)]


def is_there(document, link):
    path, _, anchor = link.partition("#")
    file = (document.parent / path) if path else document
    return file.exists() and (not anchor or anchor in anchors(file))


bad = [
    f"{document.relative_to(ROOT)}: {link}"
    for document in DOCUMENTS
    for link in links(document.read_text())
    if not link.startswith("http") and not is_there(document, link)
]
print("\n".join([*bad, f"links: {len(bad)} lead nowhere"]))
sys.exit(1 if bad else 0)
