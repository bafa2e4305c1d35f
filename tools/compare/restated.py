#!/usr/bin/env python3
"""Compares what tb_gate restates with the calls' own contracts. A function there whose comment says `Calls` and a name
between backticks hands its arguments on to that call, and has each of its clauses: with the arguments in place of the
parameters, and by whatever names definitions are brought in. Says which clause is missing, and then ends with status 1."""
import re
import sys
from pathlib import Path

CRATES = Path(__file__).resolve().parents[2] / "crates"
FUNCTION = re.compile(r"^(?P<indent> *)pub fn (?P<name>\w+)(?:<[^(]*>)?\((?P<parameters>[^)]*)\)(?P<rest>(?s:.*?))^(?P=indent)\{\}?\n", re.M)
OWNER = re.compile(r"^impl(?:<[^{]*?>)? (?:\w+ for )?(\w+)", re.M)
OF_TRAIT = re.compile(r"^impl(?:<[^{]*?>)? \w+ for (\w+).*\{\n((?s:.*?))^\}\n", re.M)
CLAUSE = re.compile(r"^ *(requires|ensures)( \w+)? \{((?:.|\n)*?)\}\n(?= *(?:requires|ensures|//|\Z|\n))", re.M)


def functions(text):
    """Each function of a file, by its type and name, with its parameters, what follows them, its comment and its body."""
    owners = [(it.start(), it[1]) for it in OWNER.finditer(text)]
    for found in FUNCTION.finditer(text):
        owner = [name for at, name in owners if at < found.start()] if found["indent"] else []
        name = f"{owner[-1]}::{found['name']}" if owner else found["name"]
        listed = re.sub(r"<[^<>]*>", "", re.sub(r"<[^<>]*>", "", found["parameters"])).split(",")
        parameters = [it.split(":")[0].split()[-1].lstrip("&") for it in listed if it.strip()]
        comment = text[: found.start()].rsplit("\n\n", 1)[-1]
        body = text[found.end() :].split(f"\n{found['indent']}}}\n")[0]
        yield name, parameters, found["rest"], comment, body


def clauses(rest, text):
    """The clauses, each as its words; a definition goes by its own name, without the module's."""
    aliases = re.findall(r"^ *ghost use [\w.]+ as (\w+);", text, re.M)
    renamed = re.findall(r"[{ ](\w+) as (\w+)[,}]", "\n".join(re.findall(r"^ *ghost use .*$", text, re.M)))
    plain = re.sub(r"^ *//.*\n", "", rest, flags=re.M)
    found = set()
    for kind, name, said in CLAUSE.findall(plain + "\n"):
        words = re.sub(rf"\b(?:{'|'.join(aliases) or '-'})\.(?=\w)", "", said)
        for was, now in renamed:
            words = re.sub(rf"\b{now}\b", was, words)
        found.add((kind, name.strip(), tuple(re.findall(r"[\w']+|[^\w\s]", words))))
    return found


def arguments(body, name):
    """What a call of that name is given in the body, its receiver first."""
    method = name.split("::")[-1]
    said = re.search(rf"(?:(\w+)\.|(?:\w+::)*)\b{method}\(([^)]*)\)", body)
    return [it for it in [said[1], *said[2].split(",")] if it and it.strip()] if said else []


def brought(text, name):
    """The crates that the file brings the call's name from, or its type's; else all that it brings something from."""
    head = name.split("::")[0]
    uses = re.findall(r"^use (tb_\w+)::([^;]*);", text, re.M)
    return {crate for crate, names in uses if re.search(rf"\b{head}\b", names)} or {crate for crate, _ in uses}


def missing(own, call):
    (_, _, rest, _, body, text), (name, parameters, its_rest, _, _, its_text) = own, call
    given = dict(zip(parameters, [it.strip() for it in arguments(body, name)]))
    for kind, label, words in clauses(its_rest, its_text):
        handed = tuple(word for it in words for word in re.findall(r"[\w']+|[^\w\s]", given.get(it, it)))
        if (kind, label, handed) not in clauses(rest, text):
            yield f"{kind} {label}: {' '.join(handed)}"


def main():
    known, of_traits, restated = {}, set(), []
    for file in sorted(CRATES.glob("tb_*/src/**/*.rt")):
        text, crate = file.read_text(), file.relative_to(CRATES).parts[0]
        of_traits |= {f"{owner}::{it}" for owner, block in OF_TRAIT.findall(text) for it in re.findall(r"^    fn (\w+)", block, re.M)}
        for it in functions(text):
            if crate != "tb_gate":
                known.setdefault(it[0], {})[crate] = (*it, text)
            elif said := re.search(r"^/// Calls `(?:\w+::)*?((?:[A-Z]\w*::)?\w+)`", it[3], re.M):
                restated.append((file, said[1], (*it, text)))
    bad, seen = 0, 0
    for file, name, own in restated:
        if name not in known and name in of_traits:
            continue  # its contract is a member of the trait
        crates = [it for it in known.get(name, {}) if it in brought(own[5], name)] or list(known.get(name, {}))
        if len(crates) != 1:
            sys.exit(f"restated: {file}: {own[0]} calls {name}, which is public in {crates or 'no crate'}")
        lacks = list(missing(own, known[name][crates[0]]))
        seen += 1
        bad += len(lacks)
        for it in lacks:
            print(f"{file.relative_to(CRATES)}: {own[0]} lacks of {crates[0]}'s {name}: {it}")
    if bad:
        sys.exit(f"restated: {bad} clauses are missing: hand each on, as the call has it, at the function that is named first")
    print(f"restated: {seen} contracts, each whole")


main()
