#!/usr/bin/env python3
"""Copies what a trial run of a program needs, so that it has less to build: tools/trial_copy.py FOLDER PROGRAM [WORD..]

The copy has the sources of the program and of the crates below it, and no definitions: a trial run tests no contract, and
the toolchain would read them for a hint alone. With the WORDs of a command of tbc, the match of jobs in
crates/tbc/src/tasks.rt keeps the arms of that command and of texts. Then whatever nothing names any more is left out:
functions, types, variants, modules and crates; of the program, and of the crates that have its commands. What is kept is
word for word what the repository has, but for one function: where the words are `run FILE` and no more, the copy takes the
FILE without reading options, so that it doesn't need the reader of the command line, which is a third of all that there is
to build. Ends with status 1 if there is no such match; whether the copy means anything is left to the compiler."""
import re
import shutil
import sys
from pathlib import Path

ROOT = Path(__file__).resolve().parent.parent
START = re.compile(r"(?:pub(?:\([a-z]+\))? )?(fn|struct|enum|const|static|type|use|mod|impl|trait)\b")
NAMED = re.compile(r"(?:pub(?:\([a-z]+\))? )?(?:fn|struct|enum|const|static|type|trait|mod) (\w+)")
TRAITS = {"IsTerminal", "MetadataExt", "Read", "Write"}  # an import of these is used without being named
USE = re.compile(r"(?:pub |ghost )?use |//!|#!")  # and the head of a file
MODULE = re.compile(r"(?:pub )?mod \w+;")
MATCH = re.compile(r"(?m)^ {4}match job \{\n")
PERFORM = "pub fn perform<"  # the function with the match of jobs
OTHER = "Err(Failure::NoMemory)"  # what all other commands do there
AT_A_TERMINAL = {"hinting", "noting"}  # modules of what is said to a person
PARTS = ("tb_program_commands", "tb_program_endings", "tb_program_files")  # the crates of the program's commands, from above
# What takes the place of the function that makes a job of words, where they are `run FILE`.
RUN_FILE = """fn job_of_words<R: Env + AllocGlobal>(rt: &R) -> Result<Asked, Failure> {
    let mut words = words(rt)?;
    let source = match words.pop() {
        Some(word) => word,
        None => return Err(Failure::NotUtf8),
    };
    let options = SourceOptions {
        seed: None,
        fit: false,
        notation: Notation::Plain,
    };
    let settings = Settings {
        options,
        keys: Typed::Digits(String::new(rt.alloc())),
        answers: String::new(rt.alloc()),
        limit: Limit::default_limit(),
    };
    let job = Job::Run(RunJob {
        what: Runnable::Source(source),
        settings,
        rude: None,
        labels: None,
        strict: false,
    });
    Ok(Asked {
        job,
        is_by_clock: false,
    })
}
"""
TYPE = re.compile(r"impl.*? for (\w+)|impl(?:<[^{]*?>)? (\w+)")


def items_of(text):
    """The items of a file, each with the comments and attributes above it. What the file begins with is the first."""
    head = re.match(r"(?:(?://!|#!).*\n|\n)*", text)[0]
    items, above, item = [("", head)], [], []
    for line in text[len(head):].splitlines(keepends=True):
        if not item and not START.match(line):
            above.append(line)
            continue
        item.append(line)
        if line.rstrip() in ("}", "};") or (len(item) == 1 and line.rstrip().endswith((";", "}"))):
            items.append(("".join(above), "".join(item)))
            above, item = [], []
    return items


def arm_of(command):
    """What an arm begins with for the commands that are kept."""
    return re.compile(rf" {{8}}Job::({command.capitalize()}|Show)\b")


def with_one_arm(text, command):
    """The function over jobs with that command's arm; no other one is reached."""
    found = MATCH.search(text)
    if not found:
        sys.exit("there is no match of jobs")
    arms, end, tail = re.split(r"(?m)^( {4}\}.*\n)", text[found.end() :], maxsplit=1)
    kept = [it for it in re.split(r"(?m)^(?= {8}Job::)", arms) if arm_of(command).match(it)]
    return text[: found.end()] + "".join(kept) + f"        _ => {OTHER},\n" + end + tail


def without_notes(text):
    """The function `start` without what it does at a terminal, which a trial run never has."""
    return re.sub(r"(?m)^    if notes \{\n(?: {8}.*\n)*    \}\n", "", text)


def names(text):
    return set(re.findall(r"\w+", re.sub(r"(?m)//.*$", "", text)))


def without_dead_variants(files, above=""):
    """Leaves out each variant of an enum that is made nowhere, here or in the text above, but only matched, with the arms
    that match it."""
    text = above + "".join(item for items in files.values() for _, item in items)
    for items in files.values():
        for _, item in list(items):
            enum = re.match(r"(?:pub )?enum (\w+)", item)
            if not enum or f"let {enum[1]}::" in text:
                continue
            for variant in re.findall(r"(?m)^    (\w+)\(.*\),$", item):
                name = re.escape(f"{enum[1]}::{variant}(")
                if re.search(rf"(?m)^(?!.*{name}.* => ).*{name}| => .*{name}", text):
                    continue
                dead = rf"(?m)^(?: +///.*\n)* +{variant}\(.*\),\n", rf"(?m)^( +){name}.* => (?:.*,|\{{\n(?:\1 .*\n)*\1\}})\n| \| {name}.*?\)(?= \|| =>)"
                for those in files.values():
                    those[:] = [(above, re.sub(dead[0] if it.startswith(enum[0]) else dead[1], "", it)) for above, it in those]


def name_of(item):
    """What an item defines, or what type an impl is of."""
    found = NAMED.match(item) or TYPE.match(item)
    return found and next(it for it in found.groups() if it)


def live(files, roots):
    """Leaves out the items that the roots do not lead to, by names."""
    by_name = {}
    for items in files.values():
        for _, item in items:
            if not USE.match(item) and not MODULE.match(item):
                by_name.setdefault(name_of(item), []).append(item)
    reached, left = set(), list(roots)
    while left:
        name = left.pop()
        if name in by_name and name not in reached:
            reached.add(name)
            left += set().union(*map(names, by_name[name]))
    for items in files.values():
        items[:] = [it for it in items if USE.match(it[1]) or MODULE.match(it[1]) or name_of(it[1]) in reached]


def imports(item, used):
    """An item; if it is an import, without the names that its file does not use, and nothing if none is left."""
    if not item.startswith(("use ", "pub use ")):
        return item
    found = re.match(r"(pub )?use ([\w:]+)::\{(.*)\};\n\Z", item, re.S)
    if not found:
        last = re.match(r"(?:pub )?use [\w:]*?(\w+);", item)
        return item if not last or last[1] in used else ""
    kept = [it.strip() for it in found[3].split(",") if it.strip() and it.split("::")[-1].strip() in used]
    return f"{found[1] or ''}use {found[2]}::{{{', '.join(kept)}}};\n" if kept else ""


def narrowed(files, roots=frozenset(["main"]), above=""):
    """Leaves out what is dead, and imports and modules of it. The roots are what others name, in the text above."""
    live(files, roots)
    without_dead_variants(files, above)
    live(files, roots)
    for items in files.values():
        used = set().union(TRAITS, roots, *(names(it) for _, it in items if not USE.match(it)))
        items[:] = [(above, imports(it, used)) for above, it in items]
        items[:] = [it for it in items if it[1]]
    empty = {file.stem for file, items in files.items() if all(USE.match(it) for _, it in items)}
    for items in files.values():
        items[:] = [it for it in items if not any(it[1] == f"mod {name};\n" for name in empty)]
    return {file: items for file, items in files.items() if file.stem not in empty}


def crates(text):
    """The lines of crates.txt by the crate."""
    rows = [it.split("#")[0].partition(":") for it in text.splitlines()]
    return {name.strip(): below.split() for name, colon, below in rows if colon}


def files_of(crate):
    return {it: items_of(it.read_text()) for it in sorted((ROOT / "crates" / crate / "src").glob("*.rt"))}


def reached(table, program):
    """The crates that a program needs, and itself."""
    needed, left = set(), [program]
    while left:
        name = left.pop()
        if name in table and name not in needed:
            needed.add(name)
            left += table[name]
    return needed


def with_one_command(files, tasks, command):
    """The files of the program with that command alone."""
    files[tasks] = [(above, with_one_arm(it, command) if it.startswith(PERFORM) else it) for above, it in files[tasks]]
    return narrowed({file: [] if file.stem in AT_A_TERMINAL else [(above, without_notes(it)) for above, it in items] for file, items in files.items()})


def all_names(files):
    return set().union(*(names(it) for items in files.values() for _, it in items))


def brought(files, crate):
    """The names that the files bring in from a crate."""
    text = "".join(it for items in files.values() for _, it in items)
    return names(" ".join(re.findall(rf"(?m)^use {crate}::([^;]*);", text)))


def is_plain(words):
    """Whether the words are `run FILE`."""
    return len(words) == 2 and words[0] == "run" and not words[1].startswith("-")


def without_reader(files, main):
    """The files of the program without the reader of the command line, for the words `run FILE`."""
    moved = {"use tb_program_command_line::{Asked, Failure, job};": "use tb_program_jobs::{Asked, Failure, Job};", "use tb_program_command_line::": "use tb_program_jobs::"}
    for old, new in moved.items():
        files = {file: [(above, it.replace(old, new)) for above, it in items] for file, items in files.items()}
    files[main] = [("", RUN_FILE) if it.startswith("fn job_of_words<") else (above, it) for above, it in files[main]]
    files[main].insert(1, ("", "use tb_program_jobs::{Limit, Notation, RunJob, Runnable, Settings, SourceOptions, Typed};\n"))
    return files


def main(folder, program, *command):
    to, source = Path(folder), ROOT / "crates" / program / "src"
    table = crates((ROOT / "crates.txt").read_text())
    if command:
        files = files_of(program)
        if is_plain(command):
            files = without_reader(files, source / "main.rt")
            table[program].append("tb_program_jobs")
        files = with_one_command(files, source / "tasks.rt", command[0])
        kept = {program: files}
        used = all_names(files)
        table[program] = [it for it in table[program] if it in used]
        for part in PARTS:
            above = [it for it in reached(table, program) if part in table[it]]
            if above:
                users = [kept.get(it) or files_of(it) for it in above]
                text = "".join(item for files in users for items in files.values() for _, item in items)
                kept[part] = narrowed(files_of(part), set().union(*(brought(it, part) for it in users)), text)
                table[part] = [it for it in table[part] if it in all_names(kept[part])]
    needed = reached(table, program)
    for name in needed:
        shutil.copytree(ROOT / "crates" / name / "src", to / "crates" / name / "src")
    for name, files in kept.items() if command else ():
        for file in (ROOT / "crates" / name / "src").glob("*.rt"):
            copied = to / "crates" / name / "src" / file.name
            copied.unlink() if file not in files else copied.write_text("".join(above + it for above, it in files[file]))
    (to / "crates.txt").write_text("".join(f"{name}: {' '.join(below)}\n" for name, below in table.items() if name in needed))
    if (ROOT / "HANDLES").exists():
        shutil.copy(ROOT / "HANDLES", to)


if __name__ == "__main__":
    main(*sys.argv[1:])
