#!/usr/bin/env python3
"""Finds sentences of more than 35 words in README.md, CONTRIBUTING.md, docs/*.md and the heads of crates, which are the lines
`//!` at the top of their first files. Prints the place of each and how many words it has, and ends with status 1 if there
is one.

A sentence ends with a full stop, `?` or `!`, or with its paragraph or its item of a list. Tables, code, headings, comments,
the texts of pictures and quotations, as that of the theorem, have none. A word has a letter or a digit. What is between
backticks is one word, and so is a list of names: several of these with only commas, `and` or `or` between them."""
import re
import sys
from pathlib import Path

ROOT = Path(__file__).resolve().parents[2]
MOST = 35
DOCUMENTS = [ROOT / "README.md", ROOT / "CONTRIBUTING.md", *sorted(ROOT.glob("docs/*.md"))]
CODE = sorted(it for it in ROOT.glob("*/*/src/*.r[ts]") if it.stem in ("lib", "main"))

FENCE = re.compile(r"^( *)```.*?^ *```", re.M | re.S)
ITEM = re.compile(r"(?:[-*]|\d+\.) +")
NO_PROSE = re.compile(r"$|#|\||>|<!--")  # nothing, a heading, a row of a table, a quotation, a comment
PICTURE = re.compile(r"!\[[^]]*\]\([^)]*\)")
TARGET = re.compile(r"\]\([^)\s]*\)")  # what a link leads to
NAMES = re.compile(r"`[^`]*`(?:(?:,|,? and|,? or) `[^`]*`)*")
END = re.compile(r"(?<!\.)[.?!][)\"'*]*(?= +[A-Z0-9`$(\[\"'*-]| *$)")


def head(text):
    """The head of a file of code."""
    return re.sub(r"^//! ?", "", re.match(r"(?://!.*\n)*", text)[0], flags=re.M)


def blocks(text):
    """The paragraphs and the items of lists: of each its lines, with their numbers."""
    text = FENCE.sub(lambda code: "\n" * code[0].count("\n"), text)
    block, in_list = [], False
    for number, line in enumerate([*text.splitlines(), ""], 1):
        said = line.strip()
        starts_item = bool(ITEM.match(said))
        is_code = line.startswith("    ") and not block and not in_list
        if block and (starts_item or is_code or NO_PROSE.match(said)):
            yield block
            block = []
        if not is_code and not NO_PROSE.match(said):
            in_list = starts_item or in_list and line.startswith(" ")
            block.append((number, ITEM.sub("", said, count=1) if starts_item else said))


def sentences(block):
    """The sentences of a block, each with the number of the line in which it begins."""
    text, begins = "", []
    for number, line in block:
        begins.append((len(text), number))
        text += f"{line} "
    for pattern in (PICTURE, TARGET):  # (blanks take their place, so that the places of all else stay)
        text = pattern.sub(lambda it: " " * len(it[0]), text)
    start = 0
    for end in [*(it.end() for it in END.finditer(text)), len(text)]:
        place = start + len(text[start:end]) - len(text[start:end].lstrip())
        yield max(number for begin, number in begins if begin <= place), text[start:end]
        start = end


def words(sentence):
    return sum(bool(re.search(r"\w", it)) for it in NAMES.sub(" name ", sentence).split())


def main():
    texts = {**{it: it.read_text() for it in DOCUMENTS}, **{it: head(it.read_text()) for it in CODE}}
    found = [
        f"{file.relative_to(ROOT)}:{line}: a sentence of {words(sentence)} words"
        for file, text in texts.items()
        for block in blocks(text)
        for line, sentence in sentences(block)
        if words(sentence) > MOST
    ]
    print("\n".join([*found, f"sentences: {len(found)} of more than {MOST} words"]))
    return 1 if found else 0


if __name__ == "__main__":
    sys.exit(main())
