#!/usr/bin/env python3
"""What one has to read to believe the headline: `compile`'s clauses `keeps` and `marks`, and `output` of `run_text` and
`play_compiled`.

From the names that a clause cites, each definition of a specs/ folder that is reached by names is read. What comes from
the toolchain (`std`) or from a library is left out, and Rust types are listed apart. A file's sentence is the comment at
its head.

  tools/compare/reading_list.py            prints each file with its lines to read, its definitions, and the Rust types
  tools/compare/reading_list.py --write    writes the tables of docs/BELIEVE.md anew, between their marks
  tools/compare/reading_list.py --check    compares them with what is written there; if they differ, ends with status 1
"""
import difflib, pathlib, re, sys

TOP = pathlib.Path(__file__).resolve().parents[2]
PAGE = TOP / "docs" / "BELIEVE.md"
# Each clause with the functions that have it; its table shows what it adds to those before.
CLAUSES = [
    ("keeps", [("tb_codegen/src/compiler.rt", "compile")]),
    ("marks", [("tb_codegen/src/compiler.rt", "compile")]),
    ("output", [("tb_driver/src/engines.rt", "run_text"), ("tb_engine_sources/src/playing.rt", "play_compiled")]),
]
# What no clause of these calls reaches: `run_text` is the instance at the limit of the cost, and these are of the other.
NOT_REACHED = {("tb_compiled.specs.Refusals", "TakesTooMuch"), ("tb_codegen.specs.Templates", "templates")}
NAME = r"[^\W\d][\w'-]*"
USE = re.compile(r"(?:pub )?use Rattle\.([\w.]+?)(?:\.\{(.*)\}| as (\S+))?$")
HEAD = re.compile(rf"(?:(?:abbrev|unfoldable) )?(?:pub )?(data|record)? ?({NAME})\s[^=]*?:(?:\s|$)")
VARIANT = re.compile(rf"^  ((?:{NAME} )+):\s", re.M)


class Module:
    """A file of specs/: what it imports, and its definitions with their lines."""

    def __init__(self, crate, name):
        self.crate, self.name = crate, name
        self.imports = {}  # a name, or the name of a module, to (path, name there; None for a whole module)
        self.defined = {}  # a name to its definition's number
        self.definitions = []  # (name, first line, lines)
        path = TOP / "crates" / crate / "specs" / (name.replace(".", "/") + ".antt")
        self.lines = path.read_text().split("\n")[:-1]
        self.read()

    def read(self):
        comment = None
        for at, line in enumerate(self.lines):
            if use := USE.match(line):
                self.import_from(*use.groups())
            elif line.startswith("--"):
                comment = at if comment is None else comment
                continue
            elif (head := HEAD.match(line)) and head[2] not in self.defined:
                self.defined[head[2]] = len(self.definitions)
                self.definitions.append((head[2], at if comment is None else comment, []))
            if line and self.definitions and not use:
                _, first, lines = self.definitions[-1]
                lines += range(first if not lines else at, at + 1)
            comment = None
        for number, (_, _, lines) in enumerate(self.definitions):
            text = self.text(lines)
            if re.match(r"(pub )?data", text):  # its variants
                for names in VARIANT.findall(text):
                    for name in names.split():
                        self.defined.setdefault(name, number)

    def import_from(self, path, names, alias):
        if names is None:
            self.imports[alias or path.split(".")[-1]] = (path, None)
        for name in (names or "").split(", "):
            if name:
                there, _, here = name.partition(" as ")
                self.imports[here or there] = (path, there)

    def text(self, lines):
        return "\n".join(line for at in lines if not (line := self.lines[at]).startswith("--"))

    def names_in(self, lines):
        """The names that a definition cites, without its fields and what it binds."""
        for clause in re.split(r"\n(?=\S)", self.text(lines)):
            bound = set(re.findall(rf"(?<=pub )({NAME}) :|[{{;]\s*({NAME}) =|^\s+({NAME}) =", clause, re.M))
            bound = {name for names in bound for name in names}
            for names in re.findall(rf"[({{]((?:{NAME} )+):|λ ((?:{NAME} )+)", clause.replace(".", " .")):
                bound |= set(" ".join(names).split())
            left = re.split(r" = | =$", clause, maxsplit=1, flags=re.M)[0]
            if left != clause and " : " not in left:  # an equation: what its patterns bind begins small
                bound |= {name for name in re.findall(NAME, left)[1:] if name[0].islower()}
            for before, name, after in re.findall(rf"(?<![\w'])(\.?)({NAME})((?:\.{NAME})?)", clause):
                if before:
                    continue
                if after and self.imports.get(name, (0, 0))[1] is None and name in self.imports:
                    yield name, after[1:]
                elif name not in bound:
                    yield name, None


def cited_by(clause, file, function):
    """The definitions that a clause of a function cites: each with its module."""
    text = (TOP / "crates" / file).read_text()
    head = text[re.search(rf"^pub fn {function}\b", text, re.M).start() :].split("\n{\n")[0]
    said = re.search(rf"^    ensures {clause} \{{(.*?)\}}\n(?=    ensures|    //|\Z)", head + "\n", re.M | re.S)[1]
    for path, names in re.findall(r"^ghost use Rattle\.([\w.]+?)\.\{(.*)\};$", text, re.M):
        for name in names.split(", "):
            if re.search(rf"(?<![\w.]){re.escape(name)}(?!\w)", said):
                yield path, name


def walk(clause, functions):
    """The files that are reached, with the numbers of their definitions that are, and the Rust types."""
    modules, reached, types = {}, {}, set()
    todo = [it for function in functions for it in cited_by(clause, *function)]
    while todo:
        path, name = todo.pop()
        if (path, name) in NOT_REACHED:
            continue
        crate, _, module = path.partition(".specs.")
        if not crate.startswith("tb_"):
            continue
        if module.startswith("declared."):
            kind = module.removesuffix(".TheVariants").split(".")[-1]
            types.add((crate, name if kind == "TheConstants" else kind))
            continue
        if (crate, module) not in modules:
            modules[crate, module] = Module(crate, module)
        here = modules[crate, module]
        if name in here.defined:
            number = here.defined[name]
            done = reached.setdefault((crate, module), set())
            if number in done:
                continue
            done.add(number)
            for cited, member in here.names_in(here.definitions[number][2]):
                if cited in here.defined and not member:
                    todo.append((path, cited))
                elif cited in here.imports:
                    there, original = here.imports[cited]
                    todo.append((there, original or member))
        elif name in here.imports:  # handed on
            there, original = here.imports[name]
            todo.append((there, original or name))
        else:
            sys.exit(f"{path} has no definition of {name}")
    return {(modules[key], number) for key in reached for number in reached[key]}, types


def in_reading_order(places, modules):
    """Files of one crate, each after those of them that it imports from."""
    ordered = []

    def visit(place):
        if place in ordered:
            return
        for path, _ in modules[place].imports.values():
            crate, _, name = path.partition(".specs.")
            if (crate, name) in places and (crate, name) != place:
                visit((crate, name))
        ordered.append(place)

    for place in sorted(places):
        visit(place)
    return ordered


def reading():
    """For each clause its name, the files that it adds in the order to read them, and the Rust types that it adds."""
    order = [line.split(":")[0] for line in (TOP / "crates.txt").read_text().split("\n")]
    known, known_types = set(), set()
    for clause, functions in CLAUSES:
        reached, types = walk(clause, functions)
        key = lambda it: (it.crate, it.name)
        new = {(key(module), number): module for module, number in reached if (key(module), number) not in known}
        modules = {place: module for (place, _), module in new.items()}
        crates = sorted({crate for crate, _ in modules}, key=order.index)
        files = []
        for crate, name in (
            place for crate in crates for place in in_reading_order({it for it in modules if it[0] == crate}, modules)
        ):
            numbers = sorted(number for place, number in new if place == (crate, name))
            module = new[(crate, name), numbers[0]]
            files.append((module, [module.definitions[number] for number in numbers]))
        yield clause, files, sorted(f"{crate} {kind}" for crate, kind in types - known_types)
        known |= set(new)
        known_types |= types


def rust_lines(kind):
    """How many lines the declaration of a Rust type takes, with the comments in it."""
    crate, name = kind.split()
    for path in sorted((TOP / "crates" / crate / "src").rglob("*.rt")):
        if found := re.search(rf"^(?:pub(?:\(\w+\))? )?(?:struct|enum|type) {name}\b[^;{{]*(?:;|\{{\}}|\{{(?s:.*?)^\}})", path.read_text(), re.M):
            return found[0].count("\n") + 1
    sys.exit(f"no Rust type {kind} was found")


def rust_row(types):
    return f"Rust types: {len(types)}, {sum(map(rust_lines, types))} lines"


def sentence(module):
    """What the head of a file says."""
    head = []
    for line in module.lines:
        if not line.startswith("-- "):
            break
        head.append(line[3:])
    return " ".join(head)


def table(files, types):
    yield "| File | What it says | Lines | Definitions |"
    yield "|---|---|---|---|"
    for module, chosen in files:
        path = f"{module.crate}/specs/{module.name}"
        count = sum(len(lines) for _, _, lines in chosen)
        names = ", ".join(name for name, _, _ in chosen)
        yield f"| [{path}](../crates/{path.replace('.', '/')}.antt) | {sentence(module)} | {count} of {len(module.lines)} | {names} |"
    lines = sum(len(lines) for _, chosen in files for _, _, lines in chosen)
    yield f"| {len(files)} files | | {lines} | {sum(len(chosen) for _, chosen in files)} definitions |"
    if types:
        yield f"| {rust_row(types)} | | | {', '.join(types)} |"


def written(page):
    """The page with its tables made anew."""
    for clause, files, types in reading():
        first, last = f"<!-- {clause} -->\n", f"<!-- end of {clause} -->\n"
        if page.count(first) != 1 or page.count(last) != 1:
            sys.exit(f"{PAGE} has no place for the table of {clause}")
        before, _, rest = page.partition(first)
        page = before + first + "\n".join(table(files, types)) + "\n" + last + rest.partition(last)[2]
    return page


def main():
    if sys.argv[1:] in (["--write"], ["--check"]):
        page = PAGE.read_text()
        wanted = written(page)
        if sys.argv[1] == "--write":
            PAGE.write_text(wanted)
        elif wanted != page:
            found, wanted = page.split("\n"), wanted.split("\n")
            print("\n".join(difflib.unified_diff(found, wanted, "docs/BELIEVE.md", "what is computed", lineterm="")))
            sys.exit("docs/BELIEVE.md has another reading list: tools/compare/reading_list.py --write makes it anew")
    else:
        for clause, files, types in reading():
            print(f"== {clause}")
            for module, chosen in files:
                lines = sum(len(lines) for _, _, lines in chosen)
                print(f"{module.crate}/specs/{module.name}: {lines} of {len(module.lines)} lines")
                print(f"    {', '.join(name for name, _, _ in chosen)}")
            print(f"{rust_row(types)}\n    {', '.join(types)}")


main()
