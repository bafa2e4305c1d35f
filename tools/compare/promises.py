#!/usr/bin/env python3
"""Prints what each public function promises, as it stands in the code: a file of docs/promises for each group of crates.txt,
with its crates, their files and in them the functions in their order, each with its clauses and without its body. Public
constants come with their values, and traits with the clauses of their members. So a promise that changes is a line of a
difference that whoever reads a change sees.

    tools/compare/promises.py            writes the files
    tools/compare/promises.py --check    compares them, prints what differs, and then ends with status 1"""
import difflib
import re
import sys
from pathlib import Path

ROOT = Path(__file__).resolve().parents[2]
PAGES = ROOT / "docs/promises"
OWNER = re.compile(r"(?:pub )?(?:impl|trait)\b.*\{$")
FUNCTION = re.compile(r" *(pub )?(?:const )?fn (\w+)")
CLAUSE = re.compile(r" *(requires|ensures|ghost)\b")
MADE = ROOT / "crates/tb_engine_page/src/texts.rt"  # of the files in web/, and nothing is promised of it
HEAD = "# What the public functions of these crates promise; tools/compare/promises.py writes this page.\n"


def groups():
    """The groups of crates.txt, each with its crates."""
    found = {}
    for line in (ROOT / "crates.txt").read_text().splitlines():
        if line.startswith("# "):
            name = re.sub(r"\W+", "_", line[2:].lower()).strip("_")
            found[name] = []
        elif line.strip():
            found[name].append(line.split(":")[0].split()[0])
    return found


def head(lines, at):
    """The lines of a function up to its body, where that begins, and whether it has clauses."""
    indent = re.match(" *", lines[at])[0]
    said = []
    for number, line in enumerate(lines[at:], at):
        if line in (f"{indent}{{", f"{indent}{{}}"):
            return said, True
        said.append(line)
        if line.endswith(";"):
            return said, any(CLAUSE.match(it) for it in said)
        if line.endswith(("{", "{}")) and not any(CLAUSE.match(it) for it in said):
            return [*said[:-1], re.sub(r" \{\}?$", "", line)], False
    return said, True


def promises(text):
    """The promises of a file, a line each: owners, constants, members of traits and functions."""
    lines, owner, told = text.splitlines(), "", ""
    for at, line in enumerate(lines):
        if OWNER.fullmatch(line):
            owner = line[:-2]
        elif line == "}":
            owner = ""
        found = FUNCTION.match(line)
        of_trait = bool(re.match(r"(?:pub )?trait\b|impl\b.* for ", owner))
        kept = []
        if re.match(r" *pub (const|static) \w+:", line):
            end = next(number for number in range(at, len(lines)) if lines[number].endswith(";"))
            kept = lines[at : end + 1]
        elif of_trait and re.match(r" {4}ghost \w+", line):
            end = next(number for number in range(at, len(lines)) if lines[number].endswith(";"))
            kept = lines[at : end + 1]
        elif found and (found[1] or of_trait):
            said, has_clauses = head(lines, at)
            kept = said if found[1] or has_clauses else []
        if kept:
            if owner and owner != told:
                yield owner
            told = owner
            yield from kept


def page(crates):
    said = [HEAD]
    for crate in crates:
        source = ROOT / "crates" / crate / "src"
        for file in sorted({*source.rglob("*.rt")} - {MADE}):
            lines = list(promises(file.read_text()))
            if lines:
                said.append(f"\n## {crate}, {file.relative_to(source)}\n\n" + "".join(f"{it}\n" for it in lines))
    return "".join(said)


def main(check):
    made = {f"{name}.txt": page(crates) for name, crates in groups().items() if name != "gate"}
    if not check:
        PAGES.mkdir(exist_ok=True)
        for file in PAGES.glob("*.txt"):
            file.unlink()
        for name, text in made.items():
            (PAGES / name).write_text(text)
        return 0
    stored = {it.name: it.read_text() for it in PAGES.glob("*.txt")}
    differs = [name for name in sorted({*made, *stored}) if made.get(name) != stored.get(name)]
    for name in differs:
        was, now = stored.get(name, "").splitlines(), made.get(name, "").splitlines()
        print("\n".join(difflib.unified_diff(was, now, f"docs/promises/{name}", "the code", lineterm="")))
    print(f"promises: {len(differs)} of {len(made)} pages differ: tools/compare/promises.py writes them" if differs else f"promises: {len(made)} pages, as the code has them")
    return 1 if differs else 0


sys.exit(main(sys.argv[1:] == ["--check"]))
