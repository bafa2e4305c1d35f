"""Changed inputs for `mutated.sh`: PROGRAM EXAMPLES COUNT SEED. Runs in a folder of its own."""
import random
import re
import resource
import subprocess
import sys
from concurrent.futures import ThreadPoolExecutor
from pathlib import Path

SECONDS = 10
MOST_MEMORY = 2 << 30

SYNTAX = "line too long|bad byte|no line number|bad line number|not compiled|syntax|number too large"
ITEM = "no such mode|label twice|runs past the end|unknown label|branch out of range|indirect at page end"
# What standard error may say at each status, a text a line; where the command line is wrong, it is the library's own.
WARNING = r"warning: line \d+: no line -?\d+"
TEXTS = {
    0: rf"{WARNING}",
    1: rf"\d+:\d+: ({SYNTAX})|empty program|line \d+: expression too deep|program too large \(\d+ bytes\)"
    rf"|text line \d+|item \d+: ({ITEM})|not a PRG: (too short|runs past the end|not RAM)|bad name|name twice|disk full",
    2: "bad key list|bad address|same file twice",
    3: "read fault|write fault",
    4: "out of memory",
    5: rf"{WARNING}|step limit",
    6: rf"{WARNING}|waits for a key",
    7: rf"{WARNING}|wrong: (unknown opcode|bad decimal|closed address [0-9A-F]{{4}}|brk) at [0-9A-F]{{4}}",
}

ASSEMBLY = b"""start:
  LDX #$05
again:
  LDA text,X
  JSR $FFD2
  DEX
  BPL again
  JMP (vector)
vector:
  .word start
text:
  .byte $48,$49,$0D,$21,$21,$21
  STA ($FB),Y
  LDA #<text
  LDY #>text+1
  RTS
"""
STEPS = b"s\ns\nb\ng 40\nv A\ne A*2+1\nd\ns\ne RND(3)\nb\nq\n"
COMMANDS = b"n\nn 3\np\nb 30\nc\nrc\nw A\nc\nv\nv A\ne A/2\nr\no\nk HELLO\nl\nl 20\ns 100\nx\nm C000 16\ni\nt 5\ng 10\nb\nq\n"
KEYS = b"350d31300d590d4e0d" * 8


def changed(chance, text):
    """A text in which one to four things are changed: bytes, stretches that go, come twice, or come from elsewhere."""
    text = bytearray(text)
    for _ in range(chance.randint(1, 4)):
        at = chance.randint(0, len(text))
        until = min(len(text), at + chance.choice([1, 1, 2, 5, 40]))
        way = chance.randrange(7)
        if way == 0:
            text[at:until] = bytes(chance.randrange(256) for _ in range(until - at))
        elif way == 1:
            del text[at:until]
        elif way == 2:
            text[at:at] = text[at:until] * chance.choice([1, 2, 3, 300])
        elif way == 3:
            text[at:at] = chance.choice([b"0", b"65535", b"-", b"(", b")" * 30, b"\0", b"\r", b"\n", b"\xff", b"RND", b",", b"$"])
        elif way == 4 and text:
            other = chance.randint(0, len(text))
            text[at:at] = text[other : other + 20]
        elif way == 5 and until > at:
            text[at] ^= 1 << chance.randrange(8)
        elif chance.randrange(4) == 0:
            del text[at:]
    return bytes(text)


def kinds(program, examples):
    """The kinds of input: the texts to change, and the words of a call that reads one, as a file or as its input."""
    sources = [it.read_bytes() for it in sorted(Path(examples).glob("*.bas"))]
    images = []
    for number, source in enumerate(sources):
        Path("source.bas").write_bytes(source)
        subprocess.run([program, "build", "source.bas", f"{number}.prg"], capture_output=True)
        if Path(f"{number}.prg").exists():
            images.append(Path(f"{number}.prg").read_bytes())
    texts = [it.read_bytes() for it in sorted(Path(examples, "asm").glob("*.asm"))]
    few = ["--limit", "20000"]
    known = str(Path(examples) / "guess.bas")
    return [
        (sources, lambda it: ["check", it], None),
        (sources, lambda it: ["build", it, f"{it}.prg", "--map", f"{it}.map", "--list", f"{it}.s", "--labels", f"{it}.l", "--watch", f"{it}.w"], None),
        (sources, lambda it: ["run", it, *few, "--keys", "350d"], None),
        (sources, lambda it: ["profile", it, *few], None),
        (sources, lambda it: ["debug", it, *few], COMMANDS),
        (images, lambda it: ["run", "--prg", it, *few], None),
        (images, lambda it: ["debug", "--prg", it, *few], COMMANDS),
        (images, lambda it: ["profile", "--prg", it, *few], None),
        (images, lambda it: ["dis", it], None),
        (images, lambda it: ["dis", it, "--for", "xa"], None),
        (sources, lambda it: ["build", it, f"{it}.prg", "--list", f"{it}.s", "--for", "acme"], None),
        (images, lambda it: ["disk", f"{it}.d64", it], None),
        ([ASSEMBLY], lambda it: ["asm", it, f"{it}.prg", "--at", "c000"], None),
        (texts, lambda it: ["assemble", it, f"{it}.prg", "--list", f"{it}.s", "--labels", f"{it}.l"], None),
        ([KEYS], lambda it: ["run", known, *few, "--keys-file", it], None),
        ([STEPS], lambda it: ["step", known, *few], True),
        ([COMMANDS], lambda it: ["debug", known, *few], True),
        ([b"50\n25\n12\n6\n3\n"], lambda it: ["play", known, *few], True),
    ]


def limited():
    resource.setrlimit(resource.RLIMIT_AS, (MOST_MEMORY, MOST_MEMORY))
    resource.setrlimit(resource.RLIMIT_CORE, (0, 0))


def is_named(status, said):
    """Whether the status is named, and each line of standard error is a text of it."""
    if status not in TEXTS:
        return False
    lines = said.decode("ascii", "replace").splitlines()
    if status == 2 and lines and lines[0].startswith("error: "):
        return True
    return all(re.fullmatch(f"tbc: ({TEXTS[status]}|{WARNING})", it) for it in lines)


def tried(program, number, words, text, given):
    """What is wrong with how the program ends on this input, if anything is."""
    name = f"input{number}"
    Path(name).write_bytes(text)
    call = [program, *words(name)]
    try:
        ran = subprocess.run(call, input=text if given is True else given or b"", capture_output=True, timeout=SECONDS, preexec_fn=limited)
    except subprocess.TimeoutExpired:
        return f"{call[1:]}: not done after {SECONDS} seconds", text
    for it in Path().glob(f"{name}*"):
        it.unlink()
    if is_named(ran.returncode, ran.stderr):
        return None
    return f"{call[1:]}: status {ran.returncode}, says {ran.stderr[:200]!r}", text


def main():
    program, examples, count, seed = sys.argv[1:]
    chance = random.Random(int(seed))
    every = kinds(program, examples)
    inputs = []
    for number in range(int(count)):
        texts, words, given = every[number % len(every)]
        inputs.append((number, words, changed(chance, chance.choice(texts)), given))
    with ThreadPoolExecutor() as pool:
        bad = [it for it in pool.map(lambda it: tried(program, *it), inputs) if it]
    for why, text in bad[:20]:
        print(f"{why}\n  {text[:200]!r}")
    print(f"mutated: {len(inputs)} inputs, {len(bad)} of them end as nothing says")
    sys.exit(1 if bad else 0)


main()
