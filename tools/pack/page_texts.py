#!/usr/bin/env python3
"""Makes the constant texts of a page, crates/tb_engine_page/src/texts.rt, of the files in web/.

    tools/pack/page_texts.py --write    writes the file
    tools/pack/page_texts.py --check    compares it with what is stored

web/page.html has marks for what comes in between: the style and the script, each with its digest for the page's policy,
and what differs from page to page, which parts the constants. The script is machine.js, screen.js and page.js one after
the other, without their lines of imports."""
import base64
import hashlib
import re
import sys
from pathlib import Path

ROOT = Path(__file__).resolve().parents[2]
WEB = ROOT / "web"
TEXTS = ROOT / "crates/tb_engine_page/src/texts.rt"
MARK = re.compile(r"\{\{(.*?)\}\}")
LONGEST = 112

# The constants in their order, each with what comes after it.
PARTS = [
    ("HEAD", "title", "A page up to the program's name in its title."),
    ("STYLE", "title", "What comes between the title and the program's name in the heading."),
    ("MIDDLE", "seed", "What comes between the heading and the seed."),
    ("PROGRAM", "program", "What comes between the seed and the bytes of the PRG file."),
    ("CHARACTERS", "characters", "What comes between these bytes and the characters of the screen."),
    ("LINES", "lines", "What comes between the characters and the rows of the source's lines."),
    ("FOOT", None, "What comes after the rows, with the script."),
]


def contents(name):
    text = (WEB / name).read_text(encoding="ascii")
    for bad in ("\t", "\r", "</script", "</style", "<!--"):
        if name != "page.html" and bad in text:
            sys.exit(f"page_texts: {bad!r} in {name}")
    return text


def script():
    texts = [re.sub(r"\A(import .*\n)*\n?", "", contents(name)) for name in ("machine.js", "screen.js", "page.js")]
    return "\n" + "\n".join(texts)


def digest(text):
    return "sha256-" + base64.b64encode(hashlib.sha256(text.encode()).digest()).decode()


def texts():
    """The constants by their names."""
    filled = {"style": "\n" + contents("page.css"), "script": script()}
    filled |= {f"{name} hash": digest(text) for name, text in filled.items()}
    pieces = MARK.split(contents("page.html"))
    found, text = [], pieces[0]
    for mark, piece in zip(pieces[1::2], pieces[2::2]):
        if mark in filled:
            text += filled[mark] + piece
        else:
            found.append((text, mark))
            text = piece
    found.append((text, None))
    if [mark for _, mark in found] != [mark for _, mark, _ in PARTS]:
        sys.exit("page_texts: page.html has other marks than are wanted")
    return {name: text for (name, _, _), (text, _) in zip(PARTS, found)}


def literal(text):
    """The literal of a text: a long line goes on behind a backslash, which takes away the spaces that begin a line."""
    rows = []
    for line in text.split("\n"):
        line = line.replace("\\", "\\\\").replace('"', '\\"')
        parts = []
        while len(line) > LONGEST + 8:
            at = line.rfind(" ", 0, LONGEST) + 1
            if at == 0 or line[at] == " " or not line[:at].strip():
                at = next(k for k in range(LONGEST, 0, -1) if line[k] != " " and line[k - 1] != "\\")
            parts.append(line[:at] + "\\\n")
            line = line[at:]
        rows.append("".join(parts) + line)
    return 'b"' + "\n".join(rows) + '"'


def file_text():
    made = "//! The constant texts of a page, which tools/pack/page_texts.py makes of web/.\n"
    for (name, _, about), text in zip(PARTS, texts().values()):
        made += f"\n/// {about}\npub const {name}: &[u8] = {literal(text)};\n"
    return made


def main(words):
    if words == ["--write"]:
        TEXTS.parent.mkdir(parents=True, exist_ok=True)
        TEXTS.write_text(file_text())
    elif words == ["--check"]:
        if not TEXTS.exists() or TEXTS.read_text() != file_text():
            sys.exit("page_texts: crates/tb_engine_page/src/texts.rt is not what web/ says: tools/pack/page_texts.py --write")
    else:
        sys.exit(__doc__)


if __name__ == "__main__":
    main(sys.argv[1:])
