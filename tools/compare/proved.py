#!/usr/bin/env python3
"""Compares docs/PROVED.md, and the heads of crates, with the code. Prints what differs, and then ends with status 1.

- "Each promise and what carries it": what its tables name of a crate, as `tb_cpu::step` or after `tb_cpu`, that crate has: a
  function or a type, or between brackets a clause or another word. Tests are those of trials/, files are there.
- "Calls that have a condition" has each exported call with a clause `requires`, and no other; crates of the groups Gate and
  Tools export nothing.
- "What is trusted" has the ported crates that the program is made of, by crates.txt, and no other.
- Each crate has a head, the lines `//!` at the top of src/lib.rt or src/main.rt: what it is, and after an empty line what
  it promises. What stands there alone between backticks is a word of the code or of the definitions, or a file."""
import re
import sys
from pathlib import Path

ROOT = Path(__file__).resolve().parents[2]
PAGE = (ROOT / "docs/PROVED.md").read_text()
FUNCTION = re.compile(r"^(?P<indent> *)pub fn (?P<name>\w+)(?P<rest>(?s:.*?))^(?P=indent)\{", re.M)
OWNER = re.compile(r"^impl(?:<[^{]*?>)? (?:\w+ for )?(\w+)", re.M)
SPAN = re.compile(r"`([^`]*)`|([()])")
OTHERS = ("tb_gate", "tb_gate_refutations", "tb_tools_bench")


def section(heading, end):
    """What stands under a heading of the page, up to a heading of that depth."""
    return re.search(rf"^#+ {heading}\n(.*?)(?=^{end} |\Z)", PAGE, re.M | re.S)[1]


def needs():
    """The crates of crates.txt, each with those that it needs."""
    lines = [line.partition("#")[0].partition(":") for line in (ROOT / "crates.txt").read_text().splitlines()]
    return {name.split()[0]: others.split() for name, colon, others in lines if colon}


def root_file(crate):
    """A crate's first file."""
    return next(it for it in (ROOT / "crates" / crate / "src" / name for name in ("lib.rt", "main.rt")) if it.exists())


def texts(crate, folders):
    """A crate's code and definitions without its head."""
    files = [it for folder in folders for it in sorted((ROOT / "crates" / crate / folder).rglob("*.*")) if it.is_file()]
    return re.sub(r"^//!.*$", "", "\n".join(it.read_text() for it in files), flags=re.M)


class Words:
    """The words of crates, and those that their code defines."""

    def __init__(self, crates):
        self.defined, self.all = {}, {}
        for crate in crates:
            said = texts(crate, ["src", "specs"])
            self.defined[crate] = set(re.findall(r"\b(?:fn|struct|enum|trait|type|const|static|ghost|abbrev pub) (\w+)", said))
            self.all[crate] = set(re.findall(r"\w+", said))
            self.all[crate] |= {it.stem for it in (ROOT / "crates" / crate).rglob("*.antt")}
        self.trials = set(re.findall(r"\w+", "".join(it.read_text() for it in ROOT.glob("trials/*/src/**/*.rs"))))
        self.any = set().union(*self.all.values())


def is_file(name, *folders):
    """Whether a file is there, from the top or from one of the folders on."""
    return any((folder / f"{name}{end}").exists() for folder in (ROOT, *folders) for end in ("", ".antt"))


def untrue_contracts(cell, words):
    """What a cell names that the crate before it doesn't have."""
    crate, depth = None, 0
    for span, bracket in SPAN.findall(cell):
        depth += {"(": 1, ")": -1}.get(bracket, 0)
        if bracket or span.startswith("$"):
            continue
        if "/" in span:
            if not is_file(span):
                yield span
            continue
        names = span.split("::")
        if names[0].startswith("tb_"):
            crate, names = names[0], names[1:]
        if crate not in words.all:
            yield crate or span
        elif not set(names) <= words.all[crate] or names and not depth and names[-1] not in words.defined[crate]:
            yield f"{crate}: {span}"


def untrue_tests(cell, words):
    """What a cell names that is no file and no test."""
    for span, _ in SPAN.findall(cell):
        is_test = re.fullmatch(r"[a-z]+(_\w+)+", span)
        if is_test and span not in words.trials or "/" in span and not is_file(span, ROOT / "trials/tb_golden/data"):
            yield span


def promises(words):
    """What the tables of promises name that isn't there."""
    for row in re.findall(r"^\| (?!---|Promise)(.*) \|$", section("Each promise and what carries it", "### Calls"), re.M):
        cells = row.split(" |")
        if len(cells) != 3:
            yield f"a row of {len(cells)} cells: {cells[0]}"
        else:
            yield from untrue_contracts(cells[1], words)
            yield from untrue_tests(cells[2], words)


def conditional(crate):
    """The names of a crate's exported calls that have a condition."""
    exported = set(re.findall(r"\w+", " ".join(re.findall(r"pub use ([^;]+);", (crate / "src/lib.rt").read_text()))))
    for file in (crate / "src").rglob("*.rt"):
        text = file.read_text()
        for found in FUNCTION.finditer(text):
            owner = OWNER.findall(text[: found.start()])[-1:] if found["indent"] else []
            is_exported = file.name == "lib.rt" or (owner or [found["name"]])[0] in exported
            if is_exported and re.search(r"^ *requires\b", found["rest"], re.M):
                yield found["name"]


def with_condition():
    """The calls that have a condition: as the page has them, and as the code has them."""
    calls = " ".join(re.findall(r"^\| (`[^|]*) \|", section("Calls that have a condition", "##"), re.M))
    told = {it.split("::")[-1] for it in re.findall(r"`([\w:]+)`", calls) if not re.fullmatch(r"tb_\w+", it)}
    crates = [it.parent.parent for it in ROOT.glob("crates/tb_*/src/lib.rt")]
    return told, {name for crate in crates if not crate.name.startswith(OTHERS) for name in conditional(crate)}


def ported(table):
    """The ported crates: as the page has them, and as the program needs them."""
    told = re.search(r"ported crates \((.*?)\)", section("What is trusted", "##"), re.S)[1]
    reached, left = set(), ["tbc"]
    while left:
        name = left.pop()
        if name not in reached:
            reached.add(name)
            left += table.get(name, [])
    return set(re.findall(r"`(\w+)`", told)), reached - table.keys()


def untrue_heads(crate, words):
    """What is wrong with a crate's head."""
    file = root_file(crate)
    head = [line[3:].strip() for line in re.match(r"(?://!.*\n)*", file.read_text())[0].splitlines()]
    if "" not in head[1:-1]:
        yield "says not what it promises"
    for span in re.findall(r"`([^`]*)`", "\n".join(head)):
        if re.fullmatch(r"[\w.]+(/[\w.]+)+", span):
            if not is_file(span, file.parents[1], ROOT / "trials/tb_golden"):
                yield f"names no file: {span}"
        elif re.fullmatch(r"\w*[a-z_]\w*(::\w+)*", span) and not set(span.split("::")) <= {*words.any, *words.all}:
            yield f"names no word of the code: {span}"


def main():
    table = needs()
    words = Words(table)
    bad = [f"docs/PROVED.md: a table of promises names {it}, which isn't there" for it in promises(words)]
    for what, (told, there) in (("calls that have a condition", with_condition()), ("ported crates", ported(table))):
        bad += [f"docs/PROVED.md: the list of {what} lacks {it}" for it in sorted(there - told)]
        bad += [f"docs/PROVED.md: the list of {what} has {it}, which is none" for it in sorted(told - there)]
    bad += [f"{root_file(crate).relative_to(ROOT)}: its head {it}" for crate in table for it in untrue_heads(crate, words)]
    print("\n".join([*bad, f"proved: {len(bad)} told wrongly"]))
    return 1 if bad else 0


sys.exit(main())
