#!/usr/bin/env python3
"""An interpreter of Tiny BASIC, written from docs/LANGUAGE.md alone, with which compiled programs are compared.

  tools/interpreter.py SOURCE [--petscii] [--keys HEX] [--answers HEX] [--seed N] [--lines N]
      writes what the source sends as `tbc run` shows it; status 0 if it ended, 5 after N lines (a million), 6 if it waits;
      with --petscii its texts may have signs, as {clr}
  tools/interpreter.py --transcript FILE
      types what is typed in the transcript to the source beside it, and writes the transcript as it is then
  tools/interpreter.py --check
      does so with each transcript of the examples, which must stay as it is; each example has two at least. The cost of
      an example that is too large is compared with the stored answer (trials/tb_golden/stdout)
"""
import argparse, pathlib, re, sys

TOP = pathlib.Path(__file__).resolve().parent.parent
GOLDEN = TOP / "trials" / "tb_golden"
RELATIONS = {
    "=": lambda a, b: a == b, "<>": lambda a, b: a != b, "><": lambda a, b: a != b, "<": lambda a, b: a < b,
    "<=": lambda a, b: a <= b, ">": lambda a, b: a > b, ">=": lambda a, b: a >= b,
}
CARRIAGE_RETURN, STOP, MOST_RETURNS = 13, 3, 500
QUOTE, MOST_TIMES = 34, 255
CONTROLS = dict(
    blk=0x90, wht=0x05, red=0x1C, cyn=0x9F, pur=0x9C, grn=0x1E, blu=0x1F, yel=0x9E,
    orng=0x81, brn=0x95, lred=0x96, gry1=0x97, gry2=0x98, lgrn=0x99, lblu=0x9A, gry3=0x9B,
    clr=0x93, home=0x13, down=0x11, up=0x91, left=0x9D, rght=0x1D, rvon=0x12, rvof=0x92,
    swlc=0x0E, swuc=0x8E, inst=0x94, **{"del": 0x14},
)


class Syntax(Exception):
    """A text that the grammar doesn't have."""


class Fault(Exception):
    """A fault, with its number."""


class Waits(Exception):
    """The keyboard's text has ended where a key is wanted."""


def signed(number):
    """A number as a word, read as -32768 to 32767."""
    return (number + 0x8000) % 0x10000 - 0x8000


# Reading a source. An expression is ("number", n), ("variable", v), ("negative", e), ("random", e) or (operator, e, e).


def meant(sign):
    """What a sign of a text stands for, by what is between its braces."""
    if re.fullmatch("[0-9A-Fa-f]{2}", sign) and int(sign, 16) not in (QUOTE, CARRIAGE_RETURN):
        return chr(int(sign, 16))
    times, name = re.fullmatch("(?:([0-9]+) )?(.*)", sign).groups()
    if name.lower() not in CONTROLS or not 1 <= int(times or 1) <= MOST_TIMES:
        raise Syntax(f"{{{sign}}} is no sign")
    return chr(CONTROLS[name.lower()]) * int(times or 1)


def parts(line, has_signs):
    """The bytes of a line, each with what it is shown as; with signs, a sign of a text and what it stands for."""
    quoted = False
    while line:
        if has_signs and quoted and line[0] == "{":
            sign, brace, line = line[1:].partition("}")
            if not brace:
                raise Syntax(f"{{{sign} has no end")
            yield "{", meant(sign)
            continue
        quoted ^= line[0] == '"'
        yield line[0], line[0].upper()
        line = line[1:]


def squeezed(line, has_signs=False):
    """A line without spaces, in upper case; a text keeps its spaces, and a remark is cut off after REM."""
    text, quoted = "", False
    for sign, shown in parts(line, has_signs):
        if sign == '"':
            quoted = not quoted
        if quoted or sign != " ":
            text += shown
        if not quoted and text.endswith("REM") and '"' not in text[-3:]:
            break
    return text


class Reader:
    """Reads a squeezed text from the left."""

    def __init__(self, text):
        self.text, self.at = text, 0

    def takes(self, word):
        found = self.text.startswith(word, self.at)
        self.at += len(word) if found else 0
        return found

    def wants(self, word):
        if not self.takes(word):
            raise Syntax(f"{word} is wanted at {self.text[self.at:]!r}")

    def match(self, pattern):
        found = re.compile(pattern).match(self.text, self.at)
        self.at = found.end() if found else self.at
        return found and found[0]

    def variable(self):
        return self.match("[A-Z]") or self.wants("a variable")

    def expression(self):
        sign = self.match("[+-]")
        value = self.term()
        if sign == "-":
            value = ("negative", value)
        while operator := self.match("[+-]"):
            value = (operator, value, self.term())
        return value

    def term(self):
        value = self.factor()
        while operator := self.match("[*/]"):
            value = (operator, value, self.factor())
        return value

    def factor(self):
        if digits := self.match("[0-9]+"):
            if int(digits) > 0xFFFF:
                raise Syntax(f"{digits} is too large")
            return ("number", signed(int(digits)))
        if self.takes("RND("):
            value = ("random", self.expression())
        elif self.takes("("):
            value = self.expression()
        else:
            return ("variable", self.variable())
        self.wants(")")
        return value

    def items(self):
        """The items of PRINT: texts as strings, expressions, and the separators between them."""
        items = []
        while self.at < len(self.text):
            text = self.match('"[^"]*"')
            items.append(("text", text[1:-1]) if text is not None else ("value", self.expression()))
            if self.at < len(self.text):
                items.append((self.match("[,;]") or self.wants("a separator"),))
        return items

    def condition(self):
        left = self.expression()
        relation = self.match("<=|>=|<>|><|[=<>]") or self.wants("a relation")
        right = self.expression()
        self.takes("THEN")
        return ("IF", RELATIONS[relation], left, right, self.statement())

    def statement(self):
        if name := self.match("[A-Z](?==)") or (self.takes("LET") and self.variable()):
            self.wants("=")
            return ("LET", name, self.expression())
        if self.takes("PRINT") or self.takes("PR"):
            return ("PRINT", self.items())
        if self.takes("INPUT"):
            names = [self.variable()]
            while self.takes(","):
                names.append(self.variable())
            return ("INPUT", names)
        if self.takes("IF"):
            return self.condition()
        if word := self.match("GOTO|GOSUB"):
            return (word, self.expression())
        if word := self.match("RETURN|END|REM"):
            return (word,)
        raise Syntax(f"a statement is wanted at {self.text[self.at:]!r}")


def program_of(source, has_signs=False):
    """The statements of a source by their numbers."""
    program = {}
    for line in re.split("\r\n|\r|\n", source):
        reader = Reader(squeezed(line, has_signs))
        if not reader.text:
            continue
        number = int(reader.match("[0-9]+") or reader.wants("a line number"))
        if not 1 <= number <= 32767:
            raise Syntax(f"{number} is no line number")
        program.pop(number, None)
        if reader.at < len(reader.text):
            program[number] = reader.statement()
        if reader.at < len(reader.text):
            raise Syntax(f"line {number} should end before {reader.text[reader.at:]!r}")
    if not program:
        raise Syntax("the program is empty")
    return program


# Running it.


class Run:
    """A run of a program: what it has sent, and how it ended."""

    def __init__(self, program, seed=1, keys=b"", answers=b"", lines=()):
        self.program, self.numbers = program, sorted(program)
        self.lines, self.turns, self.fault = list(lines), [], None
        self.after = dict(zip(self.numbers, self.numbers[1:]))  # None follows the highest line
        self.seed, self.keys, self.answers = seed, list(keys), list(answers)
        self.variables = dict.fromkeys("ABCDEFGHIJKLMNOPQRSTUVWXYZ", 0)
        self.returns, self.sent, self.column = [], bytearray(), 0
        self.is_line_open = False

    def send(self, text):
        for byte in text.encode("latin-1"):
            self.sent.append(byte)
            self.column = 0 if byte == CARRIAGE_RETURN else self.column + 1

    def value(self, expression):
        kind = expression[0]
        if kind == "number":
            return expression[1]
        if kind == "variable":
            return self.variables[expression[1]]
        if kind == "negative":
            return signed(-self.value(expression[1]))
        if kind == "random":
            return self.random(self.value(expression[1]))
        left, right = self.value(expression[1]), self.value(expression[2])
        if kind == "/":
            return self.quotient(left, right)
        return signed({"+": left + right, "-": left - right, "*": left * right}[kind])

    def quotient(self, left, right):
        if right == 0:
            raise Fault(2)
        size = abs(left) // abs(right)
        return signed(size if (left < 0) == (right < 0) else -size)

    def random(self, bound):
        if bound < 1:
            raise Fault(3)
        self.seed = (25173 * self.seed + 13849) % 0x10000
        return self.seed % bound

    def type_line(self):
        """Types the next line, and notes what was sent up to there."""
        line = self.lines.pop(0)
        self.turns.append((bytes(self.sent), line))
        self.sent.clear()
        self.keys += line.upper().encode("latin-1") + b"\r"

    def key(self):
        """The next key that isn't a space; it is taken off."""
        while True:
            while self.keys and self.keys[0] == ord(" "):
                self.keys.pop(0)
            if self.keys:
                return self.keys.pop(0)
            if not self.lines:
                raise Waits
            self.type_line()

    def input(self):
        """A number that is typed."""
        if not self.is_line_open:
            self.send("? ")
            self.is_line_open = True
        key, sign, digits = self.key(), 1, ""
        if key in b"+-":
            sign = -1 if key == ord("-") else 1
            key = self.key()
        while key in b"0123456789":
            digits += chr(key)
            key = self.key()
        if not digits or key not in b",\r":
            raise Fault(6)
        if key == CARRIAGE_RETURN:
            self.send("\r")
            self.is_line_open = False
        return signed(sign * int(digits))

    def print(self, items):
        for item in items:
            if item[0] == "text":
                self.send(item[1])
            elif item[0] == "value":
                self.send(str(self.value(item[1])))
            elif item[0] == ",":
                self.send(" " * (8 - self.column % 8))
        if not items or items[-1][0] not in ",;":
            self.send("\r")

    def target(self, expression):
        line = self.value(expression)
        if line not in self.program:
            raise Fault(1)
        return line

    def executed(self, statement, following):
        """The number of the line that comes after a statement, None for that after the highest one, 0 for the end."""
        kind = statement[0]
        if kind == "LET":
            self.variables[statement[1]] = self.value(statement[2])
        elif kind == "PRINT":
            self.print(statement[1])
        elif kind == "INPUT":
            for name in statement[1]:
                self.variables[name] = self.input()
        elif kind == "IF":
            left, right = self.value(statement[2]), self.value(statement[3])
            if statement[1](left, right):
                return self.executed(statement[4], following)
        elif kind == "GOTO":
            return self.target(statement[1])
        elif kind == "GOSUB":
            line = self.target(statement[1])
            if len(self.returns) == MOST_RETURNS:
                raise Fault(4)
            self.returns.append(following)
            return line
        elif kind == "RETURN":
            if not self.returns:
                raise Fault(5)
            return self.returns.pop()
        elif kind == "END":
            return 0
        return following

    def run(self, most_lines):
        """Runs up to so many lines: `ended`, `waits` or `goes on`."""
        line = self.numbers[0]
        try:
            for _ in range(most_lines):
                if line is None:
                    line = self.numbers[-1]
                    raise Fault(7)
                if self.answers and self.answers.pop(0) == STOP:
                    raise Fault(0)
                line = self.executed(self.program[line], self.after.get(line)) if line else 0
                if line == 0:
                    return "ended"
        except Fault as fault:
            self.send(f"\r!{fault} AT {line}\r")
            self.fault = f"fault {fault} at {line}"
            return "ended"
        except Waits:
            return "waits"
        return "goes on"


def host_form(sent, has_signs):
    """What was sent, as a terminal shows it: with signs by their names, and `[` and `]` as themselves."""
    names = {byte: f"{{{name}}}" for name, byte in CONTROLS.items()} | {91: "[", 93: "]"} if has_signs else {}
    shown = lambda byte: "\n" if byte == 13 else chr(byte) if 32 <= byte <= 90 else names.get(byte, f"{{{byte:02X}}}")
    return "".join(map(shown, sent))


def ran(path, keys=b"", answers=b"", seed=1, lines=1_000_000, has_signs=False):
    """How a source's run ends, and what it shows."""
    run = Run(program_of(path.read_text("latin-1"), has_signs), seed, keys, answers)
    ending = run.run(lines)
    return ending, host_form(run.sent, has_signs)


# Transcripts: above, lines that begin with `# ` are options and the end; below, those that begin with `> ` are typed.

ENDS = {"ended": "ends", "waits": "waits", "goes on": "runs"}


def source_beside(path):
    """The source of a transcript."""
    return path.with_name(re.sub(r"(\.[0-9]+)?\.transcript$", ".bas", path.name))


def body_lines(text):
    """What was sent, as lines of a transcript."""
    return "".join(re.sub(r"^(> |# |\\)", r"\\\1", line) + "\n" for line in text.split("\n"))


def asked(path):
    """The options of a transcript, and the lines that it types."""
    lines = path.read_text("latin-1").splitlines()
    header = [it[2:] for it in lines if it.startswith("# ")]
    options = [it for it in header if not re.match("ends$|waits$|runs$|fault ", it)]
    return options, [it[2:] for it in lines if it.startswith("> ")]


def seed_of(options):
    """The first state of RND by options of a transcript."""
    return next((int(it.split()[1]) for it in options if it.startswith("seed ")), 1)


def transcript_of(path):
    """The transcript of what the one at a path types, by its options."""
    options, typed = asked(path)
    has_signs = "petscii" in options
    program = program_of(source_beside(path).read_text("latin-1"), has_signs)
    run = Run(program, seed_of(options), lines=typed)
    end = ENDS[run.run(1_000_000)]
    text = "".join(f"# {it}\n" for it in [*options, run.fault or end])
    for sent, typed in run.turns:
        text += (body_lines(host_form(sent, has_signs)) if sent else "") + f"> {typed}\n"
    last = host_form(run.sent, has_signs)
    if last.endswith("\n"):
        return text + body_lines(last[:-1])
    return text + (body_lines(last) + "\\\n" if last else "")


# What a program costs.


def nodes(expression):
    return 1 + sum(nodes(part) for part in expression[1:] if isinstance(part, tuple))


def cost(statement):
    """What a statement costs, without its line."""
    kind = statement[0]
    if kind == "LET":
        return 48 * nodes(statement[2])
    if kind == "PRINT":
        items = [item for item in statement[1] if item[0] not in ",;"]
        return sum(24 + (len(item[1]) if item[0] == "text" else 48 * nodes(item[1])) for item in items)
    if kind == "INPUT":
        return 32 * len(statement[1])
    if kind == "IF":
        return 64 + 48 * (nodes(statement[2]) + nodes(statement[3])) + cost(statement[4])
    if kind in ("GOTO", "GOSUB"):
        return 48 + 48 * nodes(statement[1])
    return 48 if kind == "RETURN" else 0


# Comparing the examples.


def size_of(row):
    """What is answered to a row of a size, as a pattern; its bytes are any."""
    program = program_of((TOP / "examples" / f"{row.split()[1]}.bas").read_text())
    return f"costs {64 + sum(36 + cost(it) for it in program.values())} and takes [0-9]+ bytes\n"


def others():
    """What is other than the interpreter has it."""
    examples = TOP / "examples"
    for path in transcripts():
        if transcript_of(path) != path.read_text("latin-1"):
            yield f"{path.relative_to(TOP)} is another one than the interpreter's"
    for path in examples.rglob("*.bas"):
        if sum(source_beside(it) == path for it in transcripts()) < 2:
            yield f"{path.relative_to(TOP)} has no two transcripts"
    answers = (GOLDEN / "stdout").read_text("latin-1")
    for row in (GOLDEN / "data" / "compiler" / "programs.txt").read_text().split("\n"):
        if row.startswith("size ") and not re.search("\n" + re.escape(f"{row} => ") + size_of(row), answers):
            yield f"the stored answer to {row!r} is another one than the interpreter's"


def transcripts():
    """The transcripts of the examples."""
    return sorted((TOP / "examples").rglob("*.transcript"))


def check():
    """Compares the transcripts of the examples, and what one of them costs."""
    wrong = 0
    for text in others():
        wrong += 1
        print(text, file=sys.stderr)
    played = {source_beside(path) for path in transcripts()}
    print(f"{len(transcripts())} transcripts of {len(played)} examples, {wrong} other than the interpreter has them")
    return 1 if wrong or not played else 0


def main():
    parser = argparse.ArgumentParser(description="An interpreter of Tiny BASIC.")
    parser.add_argument("source", nargs="?", type=pathlib.Path)
    parser.add_argument("--keys", type=bytes.fromhex, default=b"")
    parser.add_argument("--answers", type=bytes.fromhex, default=b"")
    parser.add_argument("--seed", type=int, default=1)
    parser.add_argument("--lines", type=int, default=1_000_000)
    parser.add_argument("--petscii", action="store_true")
    parser.add_argument("--transcript", type=pathlib.Path)
    parser.add_argument("--check", action="store_true")
    given = parser.parse_args()
    if given.check:
        return check()
    if given.transcript:
        sys.stdout.write(transcript_of(given.transcript))
        return 0
    if not given.source:
        parser.error("a source is wanted")
    try:
        ending, shown = ran(given.source, given.keys, given.answers, given.seed, given.lines, given.petscii)
    except Syntax as error:
        print(error, file=sys.stderr)
        return 1
    sys.stdout.write(shown)
    return {"ended": 0, "goes on": 5, "waits": 6}[ending]


if __name__ == "__main__":
    sys.exit(main())
