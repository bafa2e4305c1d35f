#!/usr/bin/env python3
"""Writes the images of tb_gate_refutations: specs/Compiled, which are what tbc makes of a few sources, and
specs/Changed, which are these with some bytes changed. What the sources mean as programs stands in specs/Programs, by
hand.

    tools/refutations.py                    writes both files
    tools/refutations.py --check            compares them with what it would write; ends with status 1 if they differ
    tools/refutations.py [--check] FOLDER   takes NAME.prg and NAME.list from a folder in place of building them

The program is crates/tbc/out/tbc, or the one that TBC names.

A change is a text that the image holds once, and the text of the same length that comes in its place, in words:
    a9         a byte
    ..         any byte; in the new text, the byte that was there
    send       the address of a label of the listing, low byte first; <send and >send are its bytes alone
    send+4     an address after it
    ~send      the distance of a branch to it
    @          the address where this text begins
    line10:    as the first word of the old text: it begins at that label
A name before the old text makes the address where it begins a label for the changes after it.
"""
import os
import pathlib
import re
import subprocess
import sys
import tempfile
from typing import NamedTuple

ROOT = pathlib.Path(__file__).resolve().parent.parent
SPECS = ROOT / "crates/tb_gate_refutations/specs"
BASIC_START = 0x0801
LINES_AT = 0x0C00
POLL = "20 e4 ff c9 03 f0 .."  # of a line that ends away


class Image(NamedTuple):
    name: str
    lines: list  # of the source


class Change(NamedTuple):
    name: str
    comment: str
    image: str
    texts: list  # (old, new) or (name, old, new)


IMAGES = [
    Image("ends", ["10 END"]),
    Image("goto_itself", ["10 GOTO 10"]),
    Image("prints_variable", ["10 PRINT A;", "20 END"]),
    Image("prints_and_faults", ['10 PRINT "AA";1/0;']),
    Image("goes_nowhere", ["10 GOTO 20"]),
    Image("prints_two", ['10 PRINT "AA";', "20 END"]),
    Image("prints_quotient", ["10 PRINT 1/(A+1);"]),
    Image("inputs_two", ["10 INPUT A,B"]),
    Image("calls_itself", ["10 GOSUB 10"]),
    Image("calls_and_returns", ["10 GOSUB 30", "20 END", "30 RETURN"]),
    Image("goes_to_sum", ["10 GOTO A+20", "20 END"]),
    Image("prints_forever", ['10 PRINT "A";', "20 GOTO 10"]),
    Image("prints_if_zero", ['10 IF A=0 THEN PRINT "AA";', "20 END"]),
    Image("prints_negative_quotient", ["10 PRINT (A-1)/(A+2);"]),
    Image("compares_far", ['10 IF A-20000<A+20000 THEN PRINT "A";', "20 END"]),
    Image("prints_quotient_by_256", ["10 PRINT (A-1)/256;"]),
    Image("prints_if_256", ['10 IF A-256=0 THEN PRINT "A";', "20 END"]),
    Image("prints_if_positive", ['10 IF A>0 THEN PRINT "A";', "20 END"]),
    Image("prints_if_below_256", ['10 IF A-1<256 THEN PRINT "A";', "20 END"]),
    Image("prints_rest", ["10 LET A=A-1", "20 PRINT A-A/4*4;"]),
    Image("prints_rest_by_three", ["10 LET A=A-1", "20 PRINT A-A/3*3;"]),
    Image("prints_rest_of_bytes", ["10 LET A=A+25", "20 LET B=B+4", "30 PRINT A-A/B*B;"]),
    Image("prints_in_zones", ['10 PRINT "A",1;']),
]

TEXT = "a9 .. 85 fb a9 .. 85 fc a9 02 8d 6c c0 20 text 4c .. .. 41 41"
QUOTIENT = """a9 0a 8d 3a c0 a9 00 8d 3b c0 a9 01 85 fb a9 00 85 fc a9 00 85 fd a9 00 85 fe 20 divide
    a5 fb 8d 40 c0 a5 fc 8d 41 c0"""

CHANGES = [
    Change("loop_that_returns", "RTS instead of JMP to line 10", "goto_itself", [
        ("line10: " + POLL + " 4c line10", ".. " * 7 + "60 .. .."),
    ]),
    Change("end_that_loops", "if no break comes, a loop in place of the unused Poll instead of RTS: two NOP and a JMP", "ends", [
        ("line10: " + POLL + " 60", ".. " * 5 + "d0 ~poll ea"),
        ("poll: " + ".. " * 5, "ea ea 4c poll"),
    ]),
    Change("end_without_break", "two NOP instead of the branch at a break", "ends", [
        ("line10: " + POLL, ".. " * 5 + "ea ea"),
    ]),
    Change("break_in_line_20", "LDX #20 instead of LDX #10 before a break", "ends", [
        ("a2 0a a0 00 a9 00", ".. 14 " + ".. " * 4),
    ]),
    Change("end_without_cld", "NOP instead of CLD", "ends", [
        ("prologue: d8", "ea"),
    ]),
    Change("variables_uncleared", "two NOP instead of the branch back that clears the variables", "prints_variable", [
        ("9d 00 c0 ca 10 ..", ".. " * 4 + "ea ea"),
    ]),
    Change("line_10_left_out", "JMP to line 20 where line 10 begins", "prints_two", [
        ("line10: 20 e4 ff", "4c line20"),
    ]),
    Change("quotient_before_text", "the quotient is computed first, and then the text is sent", "prints_and_faults", [
        (TEXT + " " + QUOTIENT,
         QUOTIENT + " a9 <@+58 85 fb a9 >@+58 85 fc a9 02 8d 6c c0 20 text 4c @+60 41 41"),
    ]),
    Change("folded_to_zero", "0 instead of 1, and three NOP instead of the division", "prints_and_faults", [
        ("a9 01 85 fb a9 00 85 fc a9 00 85 fd a9 00 85 fe 20 divide", ".. 00 " + ".. " * 14 + "ea ea ea"),
    ]),
    Change("quotient_left_zero", "STY and STX, of 0, instead of each last ROL that completes a byte of the quotient", "prints_quotient", [
        ("26 fb 8d 66 c0", "84 .. .. .. .."),
        ("26 fb 8d 67 c0", "86 .. .. .. .."),
    ]),
    Change("quotient_rounded_down", "complements instead of the negations before and after a division of a negative number", "prints_negative_quotient", [
        ("negation", "a2 00 38 a9 00 f5 fb", ".. " * 7),
        ("sizes", "a5 fc 10 03 20 negation", ".. " * 4 + "20 poll+3"),
        ("20 sizes a2 00 38", "4c poll" + " .." * 3),
        ("poll: " + ".. " * 9, "20 sizes a2 00 18 4c negation+3"),
    ]),
    Change("difference_wrapped", "four NOP instead of BVC and EOR, which mend the sign of a difference that does not fit", "compares_far", [
        ("50 02 49 80", "ea " * 4),
    ]),
    Change("upper_byte_rounded_down", "CLC and NOP in place of what rounds a negative word up", "prints_quotient_by_256", [
        ("69 ff 29 fe 49 fe", "18 ea ea ea ea ea"),
    ]),
    Change("high_byte_ignored", "two NOP in place of the branch if a high byte is not 0", "prints_if_256", [
        ("ad 41 c0 d0 05", ".. .. .. ea ea"),
    ]),
    Change("zero_not_asked", "two NOP in place of the branch if a word that is not negative is 0", "prints_if_positive", [
        ("0d 00 c0 f0 05", ".. .. .. ea ea"),
    ]),
    Change("sign_not_turned", "two NOP in place of EOR, which turns the sign of a high byte", "prints_if_below_256", [
        ("49 80 c9 81", "ea ea .. .."),
    ]),
    Change("sign_not_looked_at", "0 in place of the high byte whose sign a remainder gets", "prints_rest", [
        ("ac 01 c0 10 0f", "a0 00 ea .. .."),
    ]),
    Change("sign_of_rest_lost", "0 in place of the high byte whose sign the rest of a multiple gets", "prints_rest_by_three", [
        ("ac 01 c0 10 0d", "a0 00 ea .. .."),
    ]),
    Change("fifth_difference_forgotten", "two NOP in place of the branch to the call if more than four divisors are in a byte", "prints_rest_of_bytes", [
        ("cd 02 c0 b0 0a", ".. .. .. ea ea"),
    ]),
    Change("byte_not_counted", "the call of CHROUT in place of that of Send, which counts columns", "prints_in_zones", [
        ("a9 41 20 send 20 zone", ".. .. .. d2 ff .. .. .."),
    ]),
    Change("digit_in_rom_memory", "the fault's digit at $026D, which the ROM may write, instead of $C06D", "goes_nowhere", [
        ("69 30 8d 6d c0", ".. .. .. .. 02"),
        ("ad 6d c0 20 send a9 20", ".. .. 02 .. .. .. .. .."),
    ]),
    Change("digit_below_s", "the fault's digit at $0180, below S, instead of $C06D", "goes_nowhere", [
        ("69 30 8d 6d c0", ".. .. .. 80 01"),
        ("ad 6d c0 20 send a9 20", ".. 80 01 .. .. .. .. .."),
    ]),
    Change("text_counted_in_x", "LDX and DEX instead of LDA and DEC: the bytes left are counted in X over CHROUT", "prints_two", [
        ("text: ad 6c c0", "ae .. .."),
        ("ce 6c c0 d0", "ca ea ea .."),
    ]),
    Change("line_dropped_at_comma", "a comma drops the rest of the line by a loop in place of the unused Poll, and ends it", "inputs_two", [
        ("c0 0d d0 .. ce 35 c0", "20 poll ea" + " .." * 3),
        ("poll: " + ".. " * 12, "98 c9 0d f0 ~pop+34 20 cf ff a8 4c poll+1"),
    ]),
    Change("calls_by_jsr", "JSR to the line instead of a note: the return is kept on the stack", "calls_itself", [
        ("line10: " + POLL + " ae 3d c0", ".. " * 7 + "20 line10"),
    ]),
    Change("notes_below_s", "the low bytes of the notes from $0100 on, below S, instead of $C100", "calls_and_returns", [
        ("9d 00 c1 a9 .. 9d 00 c3", ".. .. 01" + " .." * 5),
        ("bd 00 c1 85 fb bd 00 c3", ".. .. 01" + " .." * 5),
    ]),
    Change("return_by_the_result", "JMP (RESULT) instead of JMP (LEFT): the return that was taken is not there", "calls_and_returns", [
        ("85 fc 6c fb 00", ".. .. .. 66 c0"),
    ]),
    Change("last_entry_skipped", "JMP over the last comparison, and the search is told of one line of two", "goes_to_sum", [
        ("c9 14 d0 0f e0 00 d0 0b", "4c @+19" + " .." * 5),
        ("a9 02 8d 6a c0", ".. 01 .. .. .."),
    ]),
    Change("high_byte_for_low", "CPX #0 instead of CMP #10: the comparison with line 10 looks at the high byte alone", "goes_to_sum", [
        ("c9 0a d0 0f e0 00 d0 0b", "e0 00" + " .." * 6),
    ]),
    Change("poll_at_jump_alone", "JMP over the poll of line 10, which doesn't jump, and what is done for the STOP key", "prints_forever", [
        ("line10: 20 e4 ff c9 03 d0 09", "4c @+16" + " .." * 4),
    ]),
    Change("poll_after_if", "the text's call goes by way of one more poll, in place of the unused Poll", "prints_if_zero", [
        ("break10", "a2 0a a0 00 a9 00 4c fault_line", ".. " * 9),
        ("20 text 4c", "20 poll .."),
        ("poll: " + ".. " * 13, "20 e4 ff c9 03 f0 03 4c text 4c break10"),
    ]),
]


def fail(text):
    sys.exit(f"tools/refutations.py: {text}")


def built(image, folder):
    """The bytes of a source's image, and the addresses of the listing's labels."""
    with tempfile.TemporaryDirectory() as work:
        given = pathlib.Path(folder or work)
        prg, listing = given / f"{image.name}.prg", given / f"{image.name}.list"
        if not folder:
            program = pathlib.Path(os.environ.get("TBC", ROOT / "crates/tbc/out/tbc"))
            if not program.exists():
                fail("build the program first: ./tbc --build")
            source = given / "source.bas"
            source.write_text("".join(f"{line}\n" for line in image.lines))
            subprocess.run([program, "build", "--seed", "1", source, prg, "--list", listing], check=True)
        data, lines = prg.read_bytes(), listing.read_text().splitlines()
    if data[:2] != bytes([BASIC_START & 255, BASIC_START >> 8]):
        fail(f"the file of {image.name} is loaded somewhere else")
    labels, waiting = {}, []
    for line in lines:
        if label := re.fullmatch(r"(\w+):", line):
            waiting.append(label[1])
        elif address := re.search(r" ; ([0-9A-F]{4})  ", line):
            labels.update(dict.fromkeys(waiting, int(address[1], 16)))
            waiting = []
    code = list(data[2:])
    return code, labels


def filled(text, labels, old):
    """The bytes of a text, with None for any byte; of a new one the old text's."""
    out = []
    for word in text.split():
        if word == "..":
            out.append(old[len(out)] if old else None)
        elif re.fullmatch("[0-9a-f]{2}", word):
            out.append(int(word, 16))
        else:
            part, name, more = re.fullmatch(r"([<>~]?)([\w@]+)(?:\+(\d+))?", word).groups()
            to = labels[name] + int(more or 0)
            low, high, distance = to & 255, to >> 8, (to - labels["@"] - len(out) - 1) & 255
            out += {"<": [low], ">": [high], "~": [distance], "": [low, high]}[part]
    return out


def changed(change, code, labels):
    """The addresses with the bytes that come there."""
    labels, places = {"@": 0, **labels}, []
    for *name, old, new in change.texts:
        first, *rest = old.split(maxsplit=1)
        anchor = first[:-1] if first.endswith(":") else None
        want = filled(rest[0] if anchor else old, labels, None)
        found = [
            at for at in range(len(code) - len(want) + 1)
            if all(w in (None, b) for w, b in zip(want, code[at:])) and (not anchor or labels[anchor] == BASIC_START + at)
        ]
        if len(found) != 1:
            fail(f"{change.name}: the image of {change.image} has {len(found)} times: {old}")
        labels["@"] = BASIC_START + found[0]
        labels.update((n, labels["@"]) for n in name)
        was = code[found[0]:found[0] + len(want)]
        now = filled(new, labels, was)
        if len(now) != len(was):
            fail(f"{change.name}: {len(now)} bytes instead of {len(was)}: {new}")
        runs = []  # of bytes that differ, with those in between
        for k in (k for k in range(len(was)) if was[k] != now[k]):
            if runs and k - runs[-1][-1] < 8:
                runs[-1].append(k)
            else:
                runs.append([k])
        places += [(labels["@"] + run[0], now[run[0]:run[-1] + 1]) for run in runs]
    return places


def literal(code):
    """Bytes of a list, twenty to a line, each with its cons."""
    rows = [code[k:k + 20] for k in range(0, len(code), 20)]
    return " ∷\n".join("    " + " ∷ ".join(f"0x{b:02x}" for b in row) for row in rows) + " ∷ "


def compiled(images):
    """The text of specs/Compiled."""
    front = os.path.commonprefix([code for code, _ in images.values()])[:LINES_AT - BASIC_START]
    out = [
        "-- Images that tbc builds with the seed 1, written by tools/refutations.py.",
        "use Rattle.std.specs.Prelude.{ℕ, List, [], ◌∷◌}",
        "",
        "-- the bytes before the first line, which are the same in each image here, and then others",
        "abbrev pub after_routines : List ℕ → List ℕ",
        "after_routines lines =",
        literal(front) + "lines",
    ]
    for image in IMAGES:
        out += [
            "",
            f"-- the image of {', '.join(image.lines)}",
            f"abbrev pub {image.name}_image : List ℕ",
            f"{image.name}_image = after_routines (",
            literal(images[image.name][0][len(front):]) + "[])",
        ]
    return "\n".join(out) + "\n"


def changes(images):
    """The text of specs/Changed."""
    words = [f"{name}_image" for name in dict.fromkeys(change.image for change in CHANGES)]
    out = [
        "-- Images of the compiler with some bytes changed, written by tools/refutations.py.",
        "use Rattle.std.specs.Prelude.{ℕ, ◌+◌, ◌-◌, List, [], ◌∷◌, ◌++◌, take, drop, length}",
        "use Rattle.tb_memmap.specs.Regions.{BASIC_START}",
    ]
    while words:
        line = "use Rattle.tb_gate_refutations.specs.Compiled.{" + words.pop(0)
        while words and len(line) + len(words[0]) < 136:
            line += ", " + words.pop(0)
        out.append(line + "}")
    out += [
        "",
        "-- other bytes from an address on",
        "abbrev pub changed : List ℕ → ℕ → List ℕ → List ℕ",
        "changed bytes a new = take (a - BASIC_START) bytes ++ new ++ drop (a - BASIC_START + length new) bytes",
    ]
    for change in CHANGES:
        term = f"{change.image}_image"
        for address, new in changed(change, *images[change.image]):
            many = len(new) > 10
            body = "\n" + literal(new) if many else literal(new).strip() + " "
            term = f"changed {'(' + term + ')' if ' ' in term else term} 0x{address:04x} ({body}[])"
        out += ["", f"-- {change.comment}", f"abbrev pub {change.name} : List ℕ", f"{change.name} = {term}"]
    out += [
        "",
        "-- where the line table of END begins, as if its line began there",
        "abbrev pub line_table : ℕ → ℕ",
        f"line_table number = 0x{images['ends'][1]['line_table']:04x}",
    ]
    return "\n".join(out) + "\n"


def main():
    words = sys.argv[1:]
    check = words[:1] == ["--check"]
    folder = words[check] if words[check:] else None
    images = {image.name: built(image, folder) for image in IMAGES}
    bad = 0
    for name, text in (("Compiled", compiled(images)), ("Changed", changes(images))):
        path = SPECS / f"{name}.antt"
        if check and path.read_text() != text:
            print(f"crates/tb_gate_refutations/specs/{name}.antt is not what tools/refutations.py writes")
            bad = 1
        if not check:
            path.write_text(text)
    sys.exit(bad)


main()
