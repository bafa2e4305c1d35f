"""Compares the groups that editors give to each byte of the examples with what stands there: syntax_files.py ROOT FOLDER

FOLDER has what the editors said of the examples: a row of names for each line after the path of each file (`vim`,
`emacs`, `gtksourceview`), a page for each file (`NAME.html` of Kate's), and a text with colours for each file
(`NAME.ansi` of bat). The TextMate grammar of VS Code is read here. In pages and texts each kind has a colour of its
own: that of COLOURS."""
import html
import json
import re
import sys
from pathlib import Path

# The language's own reading of a line: the kinds of its pieces, the first that fits.
KINDS = [
    ("remark", r"REM.*"),
    ("text", r'"[^"]*"?'),
    ("statement", r"LET|PRINT|PR|INPUT|GO *TO|GO *SUB|RETURN|END"),
    ("conditional", r"IF|THEN"),
    ("function", r"RND"),
    ("number", r"\d+"),
    ("variable", r"[A-Z]"),
    ("operator", r"[-+*/=<>(),;]"),
]
READING = re.compile("|".join(f"(?P<{name}>{pattern})" for name, pattern in KINDS), re.I)
SCOPES = {
    "remark": {"comment.line.rem"},
    "text": {"string.quoted.double"},
    "statement": {"keyword.control", "keyword.other"},
    "conditional": {"keyword.control"},
    "function": {"support.function"},
    "number": {"constant.numeric"},
    "linenumber": {"entity.name.label"},
    "variable": {"variable.other"},
    "operator": {"keyword.operator", "punctuation"},
}
COLOURS = {f"#0000{place:02x}": kind for place, kind in enumerate(SCOPES, 1)}
FACES = {
    "remark": "font-lock-comment-face",
    "text": "font-lock-string-face",
    "statement": "font-lock-keyword-face",
    "conditional": "font-lock-keyword-face",
    "function": "font-lock-builtin-face",
    "number": "font-lock-constant-face",
    "linenumber": "font-lock-function-name-face",
    "variable": "font-lock-variable-name-face",
    "operator": "nil",
}


def kinds_of(line):
    """The kind of each byte of a line; spaces between pieces have none."""
    found = [""] * len(line)
    number = re.match(r"\s*\d+", line)
    if number:
        found[: number.end()] = ["linenumber"] * number.end()
    for piece in READING.finditer(line, number.end() if number else 0):
        found[piece.start() : piece.end()] = [piece.lastgroup] * (piece.end() - piece.start())
    return found


def scopes_of(line, patterns):
    """The scope of each byte of a line: at each place the first pattern that matches there."""
    found, at = [""] * len(line), 0
    while at < len(line):
        matches = [(it.start(), order, it.end(), name) for order, (name, pattern) in enumerate(patterns) if (it := pattern.search(line, at))]
        if not matches:
            break
        start, _, end, name = min(matches)
        found[start:end] = [name] * (end - start)
        at = max(end, at + 1)
    return found


def coloured(pieces):
    """The rows of names of a text, by its pieces with their colours."""
    rows = [[]]
    for colour, piece in pieces:
        for byte in piece:
            if byte == "\n":
                rows.append([])
            else:
                rows[-1].append(COLOURS.get(colour, ""))
    return rows


def rows_of_page(text):
    body = re.search(r"<pre>\n?(.*)</pre>", text, re.S)[1]
    pieces = re.findall(r'<span style="color:(#\w+);[^"]*">(.*?)</span>|([^<]+)', body, re.S)
    return coloured((colour, html.unescape(inside or outside)) for colour, inside, outside in pieces)


def rows_of_ansi(text):
    pieces, colour = [], ""
    for code, piece in re.findall(r"\x1b\[([\d;]*)m|([^\x1b]+)", text):
        if piece:
            pieces.append((colour, piece))
        else:
            found = re.search(r"38;2;(\d+);(\d+);(\d+)", code)
            colour = "#{:02x}{:02x}{:02x}".format(*map(int, found.groups())) if found else ""
    return coloured(pieces)


def rows_of_names(folder, editor, source):
    """What an editor's file says of a source."""
    rows = (folder / editor).read_text().split("\n")
    return [it.split(" ") for it in rows[rows.index(str(source)) + 1 :]]


def editors(root, folder):
    """Each editor with its rows for a source, and the names that it gives a kind."""
    grammar = json.loads((root / "editors/vscode/syntaxes/tinybasic.tmLanguage.json").read_text())
    patterns = [(it["name"].removesuffix(".tinybasic"), re.compile(it["match"])) for it in grammar["patterns"]]
    yield "vim", lambda it: rows_of_names(folder, "vim", it), lambda kind: {f"tinybasic{kind}", f"tinyBASIC{kind}"}
    yield "emacs", lambda it: rows_of_names(folder, "emacs", it), lambda kind: {FACES[kind]}
    yield "TextMate", lambda it: [scopes_of(line, patterns) for line in it.read_text().splitlines()], SCOPES.get
    yield "Kate", lambda it: rows_of_page((folder / f"{it.stem}.html").read_text()), lambda kind: {kind}
    yield "GtkSourceView", lambda it: rows_of_names(folder, "gtksourceview", it), lambda kind: {kind}
    yield "bat", lambda it: rows_of_ansi((folder / f"{it.stem}.ansi").read_text()), lambda kind: {kind}


def main():
    root, folder = Path(sys.argv[1]), Path(sys.argv[2])
    bad, count = [], 0
    for editor, rows_of, names_of in editors(root, folder):
        for source in sorted(root.glob("examples/*.bas")):
            rows = rows_of(source)
            for number, line in enumerate(source.read_text().splitlines()):
                names = rows[number] if number < len(rows) else []
                for place, kind in enumerate(kinds_of(line)):
                    if not kind or line[place] == " ":
                        continue
                    count += 1
                    name = names[place] if place < len(names) else ""
                    if name not in names_of(kind) and name.lower() not in names_of(kind):
                        bad.append(f"{source.name}: {line}: {place}: {kind}, {editor} {name}")
    print("\n".join([*bad[:20], f"syntax files: {count} bytes of the examples in six editors, {len(bad)} have another group"]))
    sys.exit(1 if bad else 0)


main()
