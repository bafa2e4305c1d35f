#!/usr/bin/env python3
"""Draws the pictures of docs/pictures from what the program and the documents say. (tools/measure/speed_bars.py draws
speed.svg.)

  screen.svg     a listing, and what its program leaves on the machine's screen
  debugger.svg   a session of `tbc debug` at a terminal, which goes on and back
  backwards.svg  a bug that is found backwards in an editor, by what `tbc dap` tells it
  memory.svg     the machine's memory by the table of docs/MACHINE.md, with a program by its map
  promises.svg   the ladder of promises of docs/THEOREMS.md
  profile.png    the page that `tbc profile --html` writes, as Chromium shows it

    tools/compare/pictures.py            draws all; the last one only if chromium is there
    tools/compare/pictures.py --check    says which drawn ones (all but the last) are not what would be drawn, and ends with 1"""
import html
import json
import re
import shutil
import subprocess
import sys
import tempfile
import textwrap
from pathlib import Path

ROOT = Path(__file__).resolve().parents[2]
sys.dont_write_bytecode = True
sys.path.insert(0, str(ROOT / "tools"))
import screen_model

TO = ROOT / "docs/pictures"
PROGRAM = ROOT / "crates/tbc/out/tbc"
DARK = "@media(prefers-color-scheme:dark){text{fill:#ddd} .dark{fill:#222}}"
SESSION = ["b 90", "c", "v", "p 2", "n", "w N", "rc", "e N*N", "q"]
PAGES = ROOT / "tools/try/clients/pages.bas"
CLICKS = [
    ("Start", "it stops at its end: line 50 divides by 0", [("configurationDone", {})]),
    ("Step Back", "D is 0, so line 50 faults", [("stepBack", {})]),
    ("Break on Value Change, at D", "who made it 0?", [("setDataBreakpoints", {"breakpoints": [{"dataId": "D"}]})]),
    ("Reverse", "line 120 will: W is 6, too many", [("reverseContinue", {})]),
    ("Step Back", "line 110 made W: a week has 7 days", [("stepBack", {})]),
    ("Restart, with the line mended", "24 pages", [("configurationDone", {})]),
]
REGIONS = {"Port": "#c9ced4", "RomWork": "#e3c08d", "Free": "#8fbf6f", "Stack": "#d79a8a", "Program": "#7fb0d3", "HighRam": "#a9d18e", "Closed": "#c9ced4"}


def svg(width, height, title, parts, style=""):
    head = f'<svg xmlns="http://www.w3.org/2000/svg" width="{width}" height="{height}" viewBox="0 0 {width} {height}" font-family="sans-serif">'
    return "\n".join([head, f"<title>{title}</title>", f"<style>text{{font-size:13px;fill:#333}} {style}{DARK}</style>", *parts, "</svg>", ""])


def text(x, y, words, more=""):
    return f'<text x="{x}" y="{y}"{more}>{html.escape(words)}</text>'


def box(x, y, width, height, colour, more=""):
    return f'<rect x="{x:.1f}" y="{y}" width="{width:.1f}" height="{height}" fill="{colour}"{more}/>'


def screen():
    """A listing, and the screen of 40 by 25 characters after its run, by the model of the ROM's own editor."""
    source = ROOT / "examples/times.bas"
    ran = subprocess.run([PROGRAM, "run", source], capture_output=True, text=True, check=True)
    shown = screen_model.Screen()
    for byte in ran.stdout.replace("\n", "\r").encode():
        shown.printed(byte)
    parts = [text(16, 30 + 19 * at, line, ' class="listing" xml:space="preserve"') for at, line in enumerate(source.read_text().splitlines())]
    parts += [box(330, 8, 370, 366, "#6c5eb5", ' rx="4"'), box(348, 26, 334, 330, "#352879")]
    rows = ["".join(screen_model.SIGNS[code & 127] for code in row).rstrip() for row in shown.codes]
    parts += [text(353, 38 + 13 * at, row, ' class="screen" xml:space="preserve"') for at, row in enumerate(rows) if row]
    style = ".listing,.screen{font-family:monospace;white-space:pre} .screen{font-size:13.5px;fill:#a59ae8 !important} "
    return svg(710, 382, "A listing in Tiny BASIC, and the Commodore 64's screen after its run", parts, style)


def debugger():
    """What a terminal shows, with what was typed in bold."""
    words = [it for line in SESSION for it in ("> ", line)]
    command = [ROOT / "tools/try/at_a_terminal.py", *words, "--", PROGRAM, "debug", ROOT / "examples/primes.bas"]
    shown = subprocess.run(command, capture_output=True, text=True, check=True).stdout
    rows = ["$ tbc debug primes.bas", *(it.rstrip() for it in shown.rstrip("\n").split("\n"))]
    height = 24 + 17 * len(rows)
    parts = ['<rect width="100%" height="100%" rx="6" fill="#1e2430"/>']
    for at, row in enumerate(rows):
        y, mark, typed = 24 + 17 * at, row[:2], row[2:]
        if mark in ("> ", "$ "):
            row = f'{html.escape(mark)}<tspan fill="#ffd479" font-weight="bold">{html.escape(typed)}</tspan>'
        else:
            row = html.escape(row)
        parts.append(f'<text x="16" y="{y}" xml:space="preserve" class="shown">{row}</text>')
    style = ".shown{font-family:monospace;fill:#d7dde8 !important} "
    return svg(620, height, "A session of tbc debug: on to a breakpoint, back by two lines, back to where N changed", parts, style)


def talked(room, requests):
    """The messages that `tbc dap` writes to these requests, each a command with its arguments."""
    asked = [json.dumps({"seq": at, "type": "request", "command": it, "arguments": more}).encode() for at, (it, more) in enumerate(requests, 1)]
    frames = b"".join(b"Content-Length: %d\r\n\r\n%s" % (len(it), it) for it in asked)
    said = subprocess.run([PROGRAM, "dap"], input=frames, capture_output=True, check=True, cwd=room).stdout
    return [json.loads(it) for it in re.findall(rb"Content-Length: \d+\r\n\r\n(.*?)(?=Content-Length: |\Z)", said, re.S)]


def shown_after(room, source, clicks):
    """What an editor shows of a source after each click: the lines that are begun and called from, variables, output."""
    (room / PAGES.name).write_text(source)
    looks = [("stackTrace", {"threadId": 1}), ("variables", {"variablesReference": 1})]
    requests = [("initialize", {}), ("launch", {"program": PAGES.name}), *(it for _, _, asked in clicks for it in (*asked, *looks))]
    found, told, lines = [], "", []
    for message in talked(room, requests):
        body = message.get("body")
        if message.get("event") == "output":
            told += body["output"]
        elif message.get("command") == "stackTrace":
            lines = [it["line"] for it in body["stackFrames"]]
        elif message.get("command") == "variables":
            found.append((source.splitlines(), lines, {it["name"]: it["value"] for it in body["variables"]}, told))
    return found


def panel(left, top, head, words, shown):
    """A click, and an editor after it."""
    source, lines, variables, told = shown
    parts = [text(left, top + 14, head, ' font-weight="bold"'), text(left, top + 31, words, ' class="small"')]
    parts.append(box(left, top + 38, 345, 196, "#1e2430", ' rx="5"'))
    for at, line in enumerate(source, 1):
        y = top + 38 + 15 * at
        if at in lines:
            parts.append(box(left + 4, y - 11, 232, 15, "#6a5a1e" if at == lines[0] else "#3a4254", ' rx="2"'))
        parts.append(text(left + 8, y, line, ' class="shown"'))
    for at, name in enumerate("DPW", 1):
        parts.append(text(left + 256, top + 38 + 15 * at, f"{name} {variables[name]:>6}", ' class="shown" xml:space="preserve"'))
    parts.append(box(left + 246, top + 44, 1, 150, "#3a4254"))
    parts.append(box(left + 4, top + 196, 337, 1, "#3a4254"))
    parts += [text(left + 8, top + 211 + 15 * at, row, ' class="shown told"') for at, row in enumerate(told.strip().split("\n"))]
    return parts


def backwards(room):
    """A bug that is found by going back, click by click; the last click runs the source once more without it."""
    source = PAGES.read_text()
    found = shown_after(room, source, CLICKS[:-1]) + shown_after(room, source.replace("W=D/2", "W=D/7"), CLICKS[-1:])
    parts = []
    for at, ((head, words, _), shown) in enumerate(zip(CLICKS, found, strict=True)):
        parts += panel(10 + at % 2 * 365, 6 + at // 2 * 250, f"{at + 1}  {head}", words, shown)
    style = ".small{font-size:12px} .shown{font-family:monospace;fill:#d7dde8 !important} .told{fill:#ffd479 !important} "
    return svg(730, 756, "A bug is found backwards in an editor, in six clicks", parts, style)


def regions():
    """The regions of MACHINE.md, as (first, last, name), in order."""
    found = []
    for line in (ROOT / "docs/MACHINE.md").read_text().splitlines():
        row = re.match(r"\| ((?:`\$.*?`|to|,| )+) \| (\w+) \|", line)
        if row and row[2] in REGIONS:
            for part in row[1].split(","):
                ends = re.findall(r"\$([0-9A-F]{4})", part)
                found.append((int(ends[0], 16), int(ends[-1], 16), row[2]))
    return sorted(found)


def program_map(room):
    """Parts of the Star Trek by its map: each with its address and bytes."""
    subprocess.run([PROGRAM, "build", "--fit", ROOT / "examples/startrek.bas", room / "it.prg", "--map", room / "it.map"], check=True)
    rows = [it.split() for it in (room / "it.map").read_text().splitlines()[1:]]
    parts = {row[0]: (int(row[-3], 16), int(row[-2])) for row in rows if row[0] != "line"}
    lines = [(int(row[2], 16), int(row[3])) for row in rows if row[0] == "line"]
    return parts, (lines[0][0], sum(size for _, size in lines)), len(lines)


def memory(room):
    left, width, parts = 20, 680, []
    parts.append(text(left, 20, "All of the memory"))
    for first, last, name in regions():
        x, wide = left + first / 65536 * width, (last + 1 - first) / 65536 * width
        parts.append(box(x, 28, wide, 34, REGIONS[name], ' stroke="#fff" stroke-width="0.4"'))
        if wide > 60:
            parts.append(text(f"{x + wide / 2:.1f}", 50, name, ' text-anchor="middle" class="on"'))
    for at in (0x0800, 0xA000, 0xC000, 0xD000):
        parts.append(text(f"{left + at / 65536 * width:.1f}", 77, f"${at:04X}", ' class="small"'))
    names = {"RomWork": "the ROM may write it", "Stack": "the stack", "Free": "the program's", "HighRam": "the program's", "Closed": "closed to programs"}
    for at, (name, words) in enumerate(names.items()):
        x, y = left + at % 3 * 220, 90 + at // 3 * 18
        parts += [box(x, y, 11, 11, REGIONS[name]), text(x + 15, y + 10, f"{name}: {words}", ' class="small"')]
    those, (start, code), lines = program_map(room)
    parts.append(text(left, 152, f"$0800 to $9FFF with examples/startrek.bas, {lines} lines"))
    pieces = [("block", *those["block"], "#4f81a8"), ("lines", start, code, "#7fb0d3"), ("line table", *those["line_table"], "#b98fc9"), ("left", *those["left"], "#dfe7ec")]
    for at, (name, first, size, colour) in enumerate(pieces):
        x, wide = left + (first - 0x800) / 0x9800 * width, size / 0x9800 * width
        parts.append(box(x, 160, wide, 34, colour, ' stroke="#fff" stroke-width="0.4"'))
        words = f"{name}: {size:,} bytes from ${first:04X}"
        parts += [box(left + at % 2 * 330, 208 + at // 2 * 18, 11, 11, colour), text(left + 15 + at % 2 * 330, 218 + at // 2 * 18, words, ' class="small"')]
    return svg(720, 244, "The memory of the Commodore 64 as programs see it", parts, ".small{font-size:11px} .on{fill:#222 !important} ")


def promises():
    found = re.search(r"## The ladder of promises\n.*?\n(1\. .*?)\n\n", (ROOT / "docs/THEOREMS.md").read_text(), re.S)[1]
    rungs = re.findall(r"(?m)^(\d)\. \*\*(.*?)\*\*((?:(?!^\d\.).*\n?)*)", found)
    parts, y, colours = [], 14, ["#d5e6cf", "#cfe0ee", "#e6dcf0", "#f5e3c8"]
    for number, title, rest in reversed(rungs):
        rows = textwrap.wrap(" ".join(rest.replace("`", "").split()), 112 - 3 * int(number))
        x, height = 14 + 22 * (int(number) - 1), 30 + 15 * len(rows)
        parts.append(box(x, y, 706 - x, height, colours[int(number) - 1], ' rx="5"'))
        parts.append(text(x + 12, y + 20, f"{number}  {title}", ' class="on" font-weight="bold"'))
        parts += [text(x + 12, y + 37 + 15 * at, row, ' class="on small"') for at, row in enumerate(rows)]
        y += height + 8
    return svg(720, y + 4, "The ladder of promises: each rung stands on those below", parts, ".small{font-size:11.5px} .on{fill:#222 !important} ")


def profile(room):
    """The page in a picture; nothing if there is no Chromium."""
    browser = shutil.which("chromium") or shutil.which("chromium-browser") or shutil.which("google-chrome")
    if not browser:
        print("chromium is not there: profile.png is left as it is")
        return
    page, picture = room / "page.html", room / "page.png"
    subprocess.run([PROGRAM, "profile", "examples/primes.bas", "--html", page], check=True, capture_output=True, cwd=ROOT)
    words = ["--headless", "--no-sandbox", "--disable-gpu", "--hide-scrollbars", f"--user-data-dir={room}/user", f"--screenshot={picture}", "--window-size=1000,940"]
    subprocess.run([browser, *words, page.as_uri()], check=True, capture_output=True, timeout=120)
    shutil.copy(picture, TO / "profile.png")


def main(words):
    if not PROGRAM.exists():
        sys.exit("build the program first: ./tbc --build")
    with tempfile.TemporaryDirectory() as folder:
        room = Path(folder)
        drawn = {"screen.svg": screen(), "debugger.svg": debugger(), "backwards.svg": backwards(room), "memory.svg": memory(room), "promises.svg": promises()}
        if words == ["--check"]:
            bad = [name for name, picture in drawn.items() if (TO / name).read_text() != picture]
            print("\n".join([*(f"docs/pictures/{it} is not what is drawn now: tools/compare/pictures.py" for it in bad), f"{len(drawn)} pictures, {len(bad)} others"]))
            return 1 if bad else 0
        for name, picture in drawn.items():
            (TO / name).write_text(picture)
        profile(room)
    return 0


sys.exit(main(sys.argv[1:]))
