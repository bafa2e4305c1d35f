#!/usr/bin/env python3
"""Tries wrong bodies with their controls, all those of a crate in one check.

A wrong body, crates/NAME/wrong/EDIT.edit or must-fail/EDIT.edit, is a change of a function that breaks its contract. Its
control, controls/EDIT.edit, changes the same function by the same means, and means the same as before. In a copy of the
crate each becomes a function next to the one that it changes, with that one's contract and proof, so that none hides
another. An edit says what it changes: `old:` and `new:` are lines of the function. One with `fn:`, a name, and `new:` has a
body in place of the function's own, which may call that function: then the promise alone refuses it. One check of these functions, over the libraries as they were proved, has to refuse each wrong body, and to prove
each control: a wrong body whose control is refused too would show nothing.

What changes no function alone (a table, a constant) stays in must-fail/, where `rt ci` tries each by itself. Its control
is made in place, and then the check is of the whole copy.

    tools/wrong.py [--anew] [CRATE | CRATE/EDIT ..]    (none: all)
    tools/wrong.py [--anew] --landing
    tools/wrong.py --pairs

--landing tries a sixth of the crates: which one, the number in .ci/landing says, so that each has its turn at least every
sixth landing. It also tries those of which more than comments, imports and names changed since the last landing, and those
of the group Gate above a crate whose code or definitions changed. What it leaves out it names. --pairs tries nothing: it compares each wrong body with its
control, as each run does first. The control changes the same place, and brings as many calls, branches and loops.

Where all was as it must be, that is kept in ~/.cache/tbc-wrong, by the sum of all that was read; --anew takes nothing
from there. The last line is `N refused, M controls proved, F failed`."""
import contextlib
import hashlib
import os
import re
import shutil
import subprocess
import sys
import tempfile
import time
import zlib
from collections import Counter
from concurrent.futures import ThreadPoolExecutor, as_completed
from pathlib import Path

ROOT = Path(__file__).resolve().parent.parent
KIT = Path(shutil.which("rt")).resolve().parent.parent
CHANGE = re.compile(r"^old: (.*)\nnew: ?(.*)$", re.M)
BODY = re.compile(r"^fn: (?:(\w+)::)?(\w+)\nnew: (.*)$", re.M)
FN = r"(?:pub(?:\(\w+\))? )?(?:const )?fn "
REFUSED = re.compile(r"not proved$|no proof: .* did not prove |no proof: expected ")
CLAUSE = "it is not proved that what the function ensures"
CALL = re.compile(r"\b(?!(?:if|match|for|while|loop|return|let|in|move|else)\b)[a-z_]\w*(?:::<[^>]*>)?!?\(")
STEP = re.compile(r"\b(?:if|match|for|while|loop)\b|\?")
READ = ("src", "specs", "proofs", "wrong", "must-fail", "controls")
KEPT = Path(os.environ.get("XDG_CACHE_HOME") or Path.home() / ".cache") / "tbc-wrong"
PARTS = 6


def with_body(text, of, name, body):
    """The function of this name, of a type if one is named, as it is and with another body."""
    for found in re.finditer(rf"^ *{FN}{name}\b", text, re.M):
        at = function_at(text, found.start())
        if at and at[2] == (of or ""):
            (start, end), indent, _ = at
            head = text.index(f"\n{indent}{{", found.start()) + 1
            return text[start:end], f"{text[start:head]}{indent}{{\n{indent}    {body}\n{indent}}}\n"
    return f"fn {name}\n", ""


def changes(edit):
    """The file that an edit changes, its pairs of texts, and whether it changes that file alone. Of a body it is the whole
    function that changes."""
    text = edit.read_text()
    files = re.findall(r"^file: (.*)$", text, re.M)
    pairs = CHANGE.findall(text)
    if whole := BODY.search(text):
        pairs = [with_body((edit.parent.parent / files[0]).read_text(), *whole.groups())]
    return files[0].strip(), pairs, len(files) == 1


def is_whole(pairs):
    return "\n" in pairs[0][0]


def function_at(text, place):
    """The span of the function that has this place, its indent, and its type if it is a method of an inherent impl."""
    for indent in ("", "    "):
        for found in re.finditer(rf"^(?:{indent}(?:///|#\[).*\n)*{indent}{FN}(?s:.*?)^{indent}\{{?\}}\n", text, re.M):
            if not found.start() <= place < found.end():
                continue
            if not indent:
                return found.span(), indent, ""
            above = [*re.finditer(r"^(impl|trait|mod)\b.*\{$", text[: found.start()], re.M)]
            if not above or text[: found.start()].rfind("\n}\n") > above[-1].start() or not re.match(r"impl(?!.* for )", above[-1][0]):
                return None
            return found.span(), indent, re.match(r"impl(?:<[^{]*?>)? (\w+)", above[-1][0])[1]
    return None


def steps(text):
    """The calls, branches and loops of a text, each kind with its number."""
    text = re.sub(r'"(?:[^"\\]|\\.)*"', "", text)
    return Counter(["a call"] * len(CALL.findall(text)) + [f"`{it}`" for it in STEP.findall(text)])


def brought(pairs):
    """The calls, branches and loops that these pairs bring; a body brings all that it has."""
    new = sum((steps(new) for _, new in pairs), Counter())
    return new if is_whole(pairs) else new - sum((steps(old) for old, _ in pairs), Counter())


def place_of(text, line):
    """The function that has this line, by where it begins, or else the lines between two empty ones."""
    found = function_at(text, text.find(line))
    return found[0] if found else next((it for it in text.split("\n\n") if line in it), None)


def edits_of(home):
    """The wrong bodies of a crate, and its controls, by their names."""
    wrong = {it.stem: it for kind in ("must-fail", "wrong") for it in sorted(home.glob(f"{kind}/*.edit"))}
    return wrong, {it.stem: it for it in sorted(home.glob("controls/*.edit"))}


def check_pairs(crate):
    """What is amiss with the pairs of a crate. Each wrong body has a control, and each control a wrong body."""
    home = ROOT / "crates" / crate
    edits, controls = edits_of(home)
    for name in sorted({*edits} ^ {*controls}):
        yield f"{crate}/{name} has no {'control' if name in edits else 'wrong body'}"
    for name in sorted({*edits} & {*controls}):
        (file, pairs, _), (its_file, its_pairs, _) = changes(edits[name]), changes(controls[name])
        text = (home / file).read_text() if (home / file).is_file() else ""
        if text.count(pairs[0][0]) != 1 or text.count(its_pairs[0][0]) != 1:
            yield f"{crate}/{name}: what it or its control changes does not stand once in {file}"
        elif file != its_file or place_of(text, pairs[0][0]) != place_of(text, its_pairs[0][0]):
            yield f"{crate}/{name} and its control change different places"
        if lacks := brought(pairs) - brought(its_pairs):
            yield f"{crate}/{name}: the control lacks {', '.join(f'{it} ({number})' for it, number in lacks.items())}"


def applied(text, pairs):
    for old, new in pairs:
        if text.count(old) != 1:
            return None
        text = text.replace(old, new)
    return text


def sibling(copy, file, name, text, pairs):
    """Where the function that these pairs change ends, and that function changed and under this name; its proof goes
    along, but for a body of its own. None if they do not change one function alone."""
    found = function_at(text, text.index(pairs[0][0])) if text.count(pairs[0][0]) == 1 else None
    body = found and applied(text[slice(*found[0])], pairs)
    if not body:
        return None
    span, indent, of = found
    was = re.search(rf"^{indent}{FN}(\w+)", body, re.M)[1]
    parts = [it for it in Path(file).relative_to("src").with_suffix("").parts if it not in ("lib", "main")]
    within = ".".join(["", "proofs", *parts, *([of] if of else []), ""])
    folder = copy.joinpath("proofs", *parts, of)
    for own, new in ((was, name), (f"+{was}", f"+{name}")):
        if (folder / own).is_dir() and not is_whole(pairs):
            shutil.copytree(folder / own, folder / new)
            for answers in (folder / new).rglob("*.antt"):
                answers.write_text(answers.read_text().replace(f"{within}{own}.", f"{within}{new}."))
    body = re.sub(rf"(?m)^{indent}#\[cycle\(\w+\)\]\n", "", body)  # nothing calls the copy
    return span[1], "\n" + re.sub(rf"\bfn {was}\b", f"fn {name}", body, count=1)


def libraries_of():
    lines = [it.partition("#")[0].split(":") for it in (ROOT / "crates.txt").read_text().splitlines()]
    return {it[0].split()[0]: it[1].split() for it in lines if len(it) == 2}


LIBRARIES = libraries_of()


def below(crate):
    found = {it for it in LIBRARIES[crate] if it in LIBRARIES}
    return found.union(*map(below, found))


def proved(name):
    return ROOT / "crates" / name / "out/rlib" / f"{name}.rlib" if name in LIBRARIES else KIT / "rlibs" / f"{name}.rlib"


def check_of(crate):
    """The words that check a crate over its libraries as they were proved, as rt has them."""
    words = ["check", "--crate-name", crate, "src/lib.rt", "--jobs", "1", "--links", f"{crate}="]
    for it in ["std", *LIBRARIES[crate]]:
        words += ["--extern", f"{it}={proved(it)}"]
    for folder in [KIT / "rlibs", *(proved(it).parent for it in sorted(below(crate)))]:
        words += ["-L", f"dependency={folder}"]
    return [*words, "--antt-project", f"{KIT}/rattle/logic/antt-project.json", "--logic-built", f"{KIT}/logic_built"]


def put_in(copy, home, names):
    """Puts the wrong bodies and controls of a crate into this copy of it, those of these names or all. Returns their
    functions with what is wanted of each, and the controls that are made in place."""
    added, wanted, in_place, placed = {}, {}, {}, []
    for kind, edits in zip(("wrong", "right"), edits_of(home)):
        for edit in (it for name, it in edits.items() if name in names or not names):
            file, pairs, alone = changes(edit)
            text = (home / file).read_text()
            name = f"{kind}_{edit.stem}"
            found = sibling(copy, file, name, text, pairs) if alone and file.startswith("src/") else None
            if found:
                added.setdefault(file, []).append(found)
                wanted[name] = kind
            elif kind == "right":
                in_place.setdefault(file, {}).update(dict.fromkeys(pairs))
                placed.append(edit.stem)
            elif edit.parent.name == "wrong":
                sys.exit(f"wrong: {edit} changes no function alone: it belongs in must-fail/")
    for file in {*added, *in_place}:
        was, pairs = (copy / file).read_text(), in_place.get(file, {})
        text = applied(was, pairs)
        if text is None:
            sys.exit(f"wrong: a control of {home.name} no longer fits {file}")
        for at, body in sorted(added.get(file, []), reverse=True):
            at += sum(len(new) - len(old) for old, new in pairs if was.index(old) < at)
            text = text[:at] + body + text[at:]
        (copy / file).write_text(text)
    return wanted, placed


def is_at_clause(said, name, copy):
    """Whether the check says of this function that it does not prove a clause, or that its proof no longer fits."""
    for file, line in re.findall(rf"^note: (src/\S+):(\d+):\d+: {CLAUSE}", said, re.M):
        text = (copy / file).read_text()
        found = function_at(text, sum(map(len, text.splitlines(keepends=True)[: int(line) - 1])))
        if found and re.search(rf"fn {name}\b", text[slice(*found[0])]):
            return True
    return bool(re.search(rf"^(?:note: )?(?:\./)?proofs/\S*\b{name}/", said, re.M))


def told(crate, wanted, placed, said, copy):
    """How many were refused and how many controls proved, by what the check said, and what failed. Where controls were
    made in place, all else has to be proved too."""
    every = re.findall(r"^fn (\S+): (.*)$", said, re.M)
    verdicts = {path.rpartition("::")[2]: verdict for path, verdict in every}
    numbers, failed = Counter(), []
    for name, kind in wanted.items():
        verdict = verdicts.get(name, "is not told of")
        if verdict == "proved" if kind == "right" else REFUSED.search(verdict) and is_at_clause(said, name, copy):
            numbers[kind] += 1
        else:
            failed.append(f"{crate}/{name.partition('_')[2]}: {'the control' if kind == 'right' else 'the wrong body'}: {verdict[:120]}")
    others = [it for it in every if it[0].rpartition("::")[2] not in wanted and it[1] != "proved"]
    failed += [f"{path}, with controls in place ({', '.join(placed)}): {verdict[:120]}" for path, verdict in others]
    numbers["right"] += 0 if others else len(placed)
    if not every:
        failed.append(f"{crate}: {said[-400:]}")
    return numbers["wrong"], numbers["right"], failed


def tried(crate, names):
    """Tries those of a crate. Returns how many were refused, how many controls proved, and what failed."""
    home = ROOT / "crates" / crate
    with tempfile.TemporaryDirectory(prefix="wrong-") as room:
        copy = Path(room) / crate
        shutil.copytree(home, copy, ignore=shutil.ignore_patterns("out", "must-fail", "wrong", "controls"))
        wanted, placed = put_in(copy, home, names)
        only = [] if placed else [word for name in wanted for word in ("--only", name)]
        how = {"stdout": subprocess.PIPE, "stderr": subprocess.STDOUT, "stdin": subprocess.DEVNULL, "text": True, "errors": "replace"}
        said = subprocess.run([KIT / "bin/rattle", *check_of(crate), *only], cwd=copy, **how).stdout
        return told(crate, wanted, placed, said, copy)


def key_of(crate):
    """The sum of all that is read to try those of a crate; a library's `format` has the sum of its files."""
    home = ROOT / "crates" / crate
    files = [ROOT / "tools/wrong.py", *(it for part in READ for it in sorted((home / part).rglob("*")) if it.is_file())]
    files += [proved(it) / "format" for it in sorted(below(crate))]
    sums = [(str(it.relative_to(ROOT)), hashlib.sha256(it.read_bytes()).hexdigest()) for it in files]
    return hashlib.sha256(repr((crate, LIBRARIES[crate], (KIT / "KIT-ID").read_text(), sums)).encode()).hexdigest()


def answer_for(crate, names, is_anew):
    """What comes of those of a crate, whether that was kept, and the seconds that it took."""
    unproved = [it for it in sorted(below(crate)) if not (proved(it) / "format").is_file()]
    if unproved:
        return 0, 0, [f"{crate}: not proved yet: {' '.join(unproved)}"], False, 0
    kept = KEPT / key_of(crate)
    if not (names or is_anew) and os.access(kept, os.R_OK):
        return *map(int, kept.read_text().split()), [], True, 0
    began = time.monotonic()
    refused, proven, failed = tried(crate, names)
    if not (names or failed):
        with contextlib.suppress(OSError):  # (then the next run tries them again)
            KEPT.mkdir(parents=True, exist_ok=True)
            kept.write_text(f"{refused} {proven}\n")
    return refused, proven, failed, False, time.monotonic() - began


def git(*words):
    return subprocess.run(["git", *words], cwd=ROOT, capture_output=True, text=True).stdout


def every_crate():
    return sorted({it.parent.name for kind in ("wrong", "must-fail", "controls") for it in ROOT.glob(f"crates/*/{kind}")})


def code_of(text, named):
    """A text by its names and signs, without comments on lines of their own and without imports, which a moved name changes;
    of an earlier text, crates have the names that they have now."""
    text = re.sub(r"(?m)^ *(?:pub |ghost )?use [^;{]*(?:\{[^}]*\})?;?\n", "", text)
    lines = [it for line in text.splitlines() if (it := line.strip()) and not it.startswith(("//", "-- "))]
    text = re.sub(r"\btb_\w+", lambda it: named.get(it[0], it[0]), "".join(lines))
    return re.sub(r",(?=[)}\]])", "", re.sub(r"\s", "", text))


def named_since(commit):
    """The crates that are gone since then, each with the crate that has most of its files now."""
    before = [it.split("/", 2)[1:] for it in git("ls-tree", "-r", "--name-only", commit, "crates").splitlines()]
    now = {}
    for name, path in (it.split("/", 2)[1:] for it in git("ls-files", "crates").splitlines()):
        now.setdefault(path, []).append(name)
    gone = {name for name, _ in before if not (ROOT / "crates" / name).exists()}
    common = {name: Counter() for name in gone}
    for name, path in before:
        if name in gone and not path.endswith(("/lib.rt", "/Lib.antt")):
            common[name].update(now.get(path, []))
    return {name: most.most_common(1)[0][0] for name, most in common.items() if most}


def is_changed(path, commit, named):
    """Whether more than comments, imports and names of crates changed in a file since then."""
    file, (_, crate, inside) = ROOT / path, path.split("/", 2)
    for name in (crate, *(old for old, new in named.items() if new == crate)):
        before = subprocess.run(["git", "show", f"{commit}:crates/{name}/{inside}"], cwd=ROOT, capture_output=True, text=True)
        if not before.returncode:
            return not file.exists() or code_of(before.stdout, named) != code_of(file.read_text(), {})
    return True


def changed_since(commit):
    """The crates of which more than that changed since then in what is read here, and those of the group Gate that name a
    crate whose code or definitions changed."""
    named = named_since(commit)
    names = git("diff", "--name-only", "--no-renames", commit, "--", "crates").splitlines()
    here = [it for it in names if it.split("/")[1] not in named and it.split("/")[2] in READ]
    paths = [it.split("/") for it in here if is_changed(it, commit, named)]
    changed = {it[1] for it in paths}
    contracts = {it[1] for it in paths if it[2] in ("src", "specs")}
    for crate in every_crate():
        code = "".join(it.read_text() for it in ROOT.glob(f"crates/{crate}/src/**/*.rt"))
        if crate == "tb_gate" and contracts & {*re.findall(r"\btb_\w+", code)}:
            changed.add(crate)
    return changed


def of_this_landing():
    """The crates whose turn it is, or that changed since the last landing: since the commit that last wrote .ci/landing,
    leaving out the newest one, which is this landing's."""
    part = int((ROOT / ".ci/landing").read_text()) % PARTS
    commits = git("log", "-2", "--format=%H", "--", ".ci/landing").split()
    changed = changed_since(commits[1]) if len(commits) == 2 else set()
    return [it for it in every_crate() if it in changed or zlib.crc32(it.encode()) % PARTS == part]


def wanted_of(words):
    """The crates that are to be tried, each with the names of its wrong bodies, or with none for all."""
    if words == ["--landing"]:
        return {it: set() for it in of_this_landing()}
    known = {it for crate in every_crate() for it in (crate, *(f"{crate}/{name}" for name in edits_of(ROOT / "crates" / crate)[0]))}
    if unknown := [it for it in words if it not in known]:
        sys.exit(f"wrong: no wrong body is there: {' '.join(unknown)}")
    wanted = {it: set() for it in (word.partition("/")[0] for word in words or every_crate())}
    for crate, _, name in (it.partition("/") for it in words):
        wanted[crate] |= {name} - {""}
    return wanted


def lanes():
    """How many checks run side by side: one for each processor, as far as there are 4 GB for each."""
    free = int(re.search(r"^MemAvailable: *(\d+)", Path("/proc/meminfo").read_text(), re.M)[1])
    return max(1, min(len(os.sched_getaffinity(0)), free // 4_000_000))


def try_all(wanted, is_anew):
    """Tries these, those with the most first, and says what comes of each. Returns whether all was as it must be."""
    number = lambda crate: sum(map(len, edits_of(ROOT / "crates" / crate)))
    totals, kept = Counter(), 0
    with ThreadPoolExecutor(lanes()) as pool:
        order = sorted(wanted, key=lambda it: (-number(it), it))
        running = {pool.submit(answer_for, it, wanted[it], is_anew): it for it in order}
        for it in as_completed(running):
            refused, proven, failed, is_kept, seconds = it.result()
            how = "kept from an earlier run" if is_kept else f"{seconds:.0f} s"
            print(f"wrong: {running[it]}: {refused} refused, {proven} controls proved ({how})")
            print("".join(f"  NOT AS IT MUST BE: {why}\n" for why in failed), end="", flush=True)
            totals += Counter(refused=refused, proven=proven, failed=len(failed))
            kept += is_kept
    print(f"wrong: {kept} of {len(wanted)} crates were kept from an earlier run")
    print(f"{totals['refused']} refused, {totals['proven']} controls proved, {totals['failed']} failed")
    return not totals["failed"]


def main():
    words = [it for it in sys.argv[1:] if it != "--anew"]
    if amiss := [why for crate in every_crate() for why in check_pairs(crate)]:
        sys.exit("".join(f"wrong: {it}\n" for it in amiss) + f"wrong: {len(amiss)} pairs are amiss")
    if words == ["--pairs"]:
        return
    wanted = wanted_of(words)
    if later := [it for it in every_crate() if it not in wanted and words == ["--landing"]]:
        print(f"wrong: other landings try {' '.join(later)}")
    sys.exit(not try_all(wanted, len(words) + 1 < len(sys.argv)))


main()
