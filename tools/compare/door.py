#!/usr/bin/env python3
"""Sees in crates.txt that no tool stands on the compiler. A crate of the groups Engines and Editors needs none that is
behind the door, itself or by way of another crate, but for those of JOINS. It says how many crates stand above
tb_compiler_templates: at most MOST_ABOVE, and none of the group Editors. Prints what is otherwise, and then ends with
status 1."""
import functools
import sys
from pathlib import Path

ROOT = Path(__file__).resolve().parents[2]
BEHIND = {f"tb_{it}" for it in ("lower", "compiler_selection", "assembly_settling", "machine_reaching", "runtime16", "compiler_templates",
                                "compiler_program", "proof_simulation", "proof_correctness", "codegen")}
BEFORE = ("Engines", "Editors")
# Crates that may stand on both sides, with the reason. So no other crate of these groups may need them.
JOINS = {
    "tb_driver": "its calls fix the compiler",
    "tb_engine_listing": "it finds what it lists by its bytes, as long as the compiler keeps no labels",
}
MOST_ABOVE = 16


def crates():
    """The crates of crates.txt, each with its group and the crates that it needs directly."""
    found, group = {}, ""
    for line in (ROOT / "crates.txt").read_text().splitlines():
        if line.startswith("# "):
            group = line[2:]
        elif line.strip():
            name, _, needs = line.partition(":")
            found[name.split()[0]] = group, needs.split()
    return found


CRATES = crates()


@functools.cache
def below(crate):
    """The crates that one needs, itself or by way of others."""
    needs = [it for it in CRATES[crate][1] if it in CRATES]
    return set(needs).union(*map(below, needs))


def amiss():
    """What is otherwise than it should be."""
    before = [it for it, (group, _) in CRATES.items() if group in BEFORE]
    for it in sorted({*BEHIND, *JOINS} - {*CRATES}):
        yield f"crates.txt has no {it}"
    for crate in before:
        if crate not in JOINS and (found := below(crate) & {*BEHIND, *JOINS}):
            yield f"{crate} stands on {', '.join(sorted(found))}"
    for crate in JOINS:
        if not below(crate) & BEHIND:
            yield f"{crate} no longer stands on the compiler: leave it out here"
    above = [it for it in CRATES if "tb_compiler_templates" in below(it)]
    print(f"door: {len(above)} crates stand above tb_compiler_templates")
    if len(above) > MOST_ABOVE:
        yield f"these may be {MOST_ABOVE} at most: {', '.join(above)}"
    for crate in above:
        if CRATES[crate][0] == "Editors":
            yield f"{crate} stands above tb_compiler_templates"


bad = list(amiss())
print("".join(f"door: {it}\n" for it in bad), end="")
sys.exit(1 if bad else 0)
