#!/usr/bin/env python3
"""Draws what tools/measure/generated.sh prints, as bars: for each program of the first half the cycles of cc65, tbc and the
floor, as shares of cc65's.

    tools/measure/generated.sh | tools/measure/speed_bars.py >docs/pictures/speed.svg"""
import re
import sys

ROW = re.compile(r"^(\w+): .* (\d+) cycles, cc65 (\d+), floor (\d+)", re.M)  # a program of the second half has a folder
COLOURS = {"cc65": "#9aa5b1", "tbc": "#2f6f9f", "floor": "#8fbf6f"}
WIDTH, LEFT, BAR, GAP = 720, 90, 11, 14
FULL = 360  # the width of cc65's bar


def bar(y, name, share):
    width = min(share * FULL, WIDTH - LEFT - 60)
    return (
        f'<rect x="{LEFT}" y="{y}" width="{width:.1f}" height="{BAR - 1}" fill="{COLOURS[name]}"/>'
        f'<text x="{LEFT + width + 5:.1f}" y="{y + BAR - 2}" class="small">{share:.2f}</text>'
    )


def main():
    rows = [(name, int(tbc), int(cc65), int(floor)) for name, tbc, cc65, floor in ROW.findall(sys.stdin.read())]
    height = 50 + len(rows) * (3 * BAR + GAP)
    print(f'<svg xmlns="http://www.w3.org/2000/svg" width="{WIDTH}" height="{height}" viewBox="0 0 {WIDTH} {height}" font-family="sans-serif">')
    print("<title>Cycles of compiled programs as shares of cc65's</title>")
    print("<style>text{font-size:13px;fill:#444} .small{font-size:10px} @media(prefers-color-scheme:dark){text{fill:#ccc}}</style>")
    for place, (name, colour) in enumerate(COLOURS.items()):
        print(f'<rect x="{LEFT + place * 90}" y="12" width="12" height="12" fill="{colour}"/><text x="{LEFT + place * 90 + 17}" y="23">{name}</text>')
    for place, (name, tbc, cc65, floor) in enumerate(sorted(rows, key=lambda it: it[1] / it[2])):
        y = 40 + place * (3 * BAR + GAP)
        print(f'<text x="{LEFT - 8}" y="{y + 2 * BAR}" text-anchor="end">{name}</text>')
        for at, (kind, cycles) in enumerate((("cc65", cc65), ("tbc", tbc), ("floor", floor))):
            print(bar(y + at * BAR, kind, cycles / cc65))
    print("</svg>")


main()
