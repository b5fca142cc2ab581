#!/usr/bin/env python3
"""Counts the trusted definitions: those that a contract names, and the definitions of specs/ that they name in turn.

usage: tools/lint/definitions.py NAME..      prints their files with line counts and names, and the sum
       tools/lint/definitions.py --write     writes the counts of docs/specification.md
       tools/lint/definitions.py --check     checks the page and the READMEs
       tools/lint/definitions.py --self-test shows that seeded faults are reported

A NAME is one of three things: a definition, such as Rattle.wat_lex.specs.tokens.Tiling.MaximalTiling; a source, such as crates/wat_lex/src/lexer.rt,
for all that the contracts of its public functions and its impls cite; or some functions of a source, such as crates/wat_lex/src/lexer.rt:scan,iter.
A definition after a minus sign, or each definition of a module after one, is not followed. Lines are counted without comments, imports and empty
lines. Types of the code, which specs/ import as `declared`, and definitions of Rattle's library are not followed either.

A table of the page is between `<!-- definitions NAME.. -->` and `<!-- end -->`: a row for each file, in reading order, with its line count in the
second column, and a last row with the sum. A table has only the definitions that the tables before it lack.

--check exits with status 1 if a count is stale; if a table lacks a file or has one that adds nothing; if a README lacks a file of specs/; or if one
of these promises is in no table of the page: each public function of a `crates/*/src/laws.rt`, each function of a public module whose contract cites
definitions, each function in the table of claims of docs/verification.md, and each function that include/wat.h declares, which the page must also
name.
"""
import dataclasses
import functools
import pathlib
import re
import sys

sys.path.append(str(pathlib.Path(__file__).resolve().parents[1] / "lib"))

from rattle_source import CRATES, ROOT, items_of, past_group, tokens_of

PAGE = ROOT / "docs/specification.md"
CLAIMS = ROOT / "docs/verification.md"
HEADER = ROOT / "include/wat.h"
C_SOURCES = CRATES / "wat_c/src"
USE = re.compile(r"(?P<public>pub )?use (?P<module>[^\s{}]+?)(?:\.\{(?P<names>.*)\})?(?: as (?P<alias>\S+))?;?")
MARKS = {"abbrev", "unfoldable", "pub", "pattern"}
WORD = r"[^\s(){}.;,@\"«»\[\]]+"
PATH = re.compile(rf"{WORD}(?:\.{WORD})*")
TABLE = re.compile(r"<!-- definitions (?P<names>.*?) -->\n(?P<head>\n?\|.*\n\|.*\n)(?P<rows>(?:\|.*\n)*)\n?<!-- end -->")
ROW = re.compile(r"\| \[[^\]]*\]\(\.\./(?P<file>[^)]*)\) \|(?P<lines>[^|]*)\|(?P<rest>.*)")


@dataclasses.dataclass(eq=False)
class Definition:
    module: str
    name: str
    lines: list
    comments: int


@dataclasses.dataclass
class Module:
    definitions: dict = dataclasses.field(default_factory=dict)
    constructors: dict = dataclasses.field(default_factory=dict)
    # imported names, each with its module and its name there; those that are re-exported; and modules by their local names
    names: dict = dataclasses.field(default_factory=dict)
    passed: dict = dataclasses.field(default_factory=dict)
    modules: dict = dataclasses.field(default_factory=dict)


def file_of(module):
    """Returns the file of a module of specs/, or `None` if it is a type of the code or a module of Rattle's library."""
    parts = module.split(".")
    file = CRATES / parts[1] / "specs" / ("/".join(parts[3:]) + ".antt") if parts[0] == "Rattle" and parts[2:3] == ["specs"] else None
    return file if file and file.is_file() else None


def note_use(found, module):
    """Records the names that a `use` imports."""
    if found["names"] is None:
        module.modules[found["alias"] or found["module"].split(".")[-1]] = found["module"]
        return
    for name in found["names"].split(","):
        there, _, here = name.strip().partition(" as ")
        module.names[here or there] = (found["module"], there)
        if found["public"]:
            module.passed[here or there] = (found["module"], there)


def begun(line, path, module, comments):
    """Returns the definition that a line begins or continues."""
    words = line.split()
    marks = [it for it in words if it in MARKS]
    words = [it for it in words if it not in MARKS]
    name = words[1] if words[0] in ("data", "record") else words[0]
    if marks or name not in module.definitions:
        module.definitions[name] = Definition(path, name, [], comments)
    else:
        module.definitions[name].comments += comments
    return module.definitions[name]


def without_blocks(text):
    """Yields the lines of a file, with those of a nested `module` unindented as if they were outside of it."""
    deep = 0
    for line in text.splitlines():
        if line.strip() and len(line) - len(line.lstrip()) < 2 * deep:
            deep = (len(line) - len(line.lstrip())) // 2
        line = line[2 * deep :]
        deep += line.startswith("module ")
        yield line


@functools.cache
def read(path):
    """Parses a module of specs/ by its path. Returns `None` if it has no file."""
    file = file_of(path)
    if not file:
        return None
    module, current, comments = Module(), None, 0
    for line in without_blocks(file.read_text(encoding="utf-8")):
        use = USE.fullmatch(line)
        if use:
            note_use(use, module)
        if use or not line.strip() or line.startswith(("pub mod ", "module ")):
            comments = 0
        elif line.startswith("--"):
            comments += 1
        elif line.lstrip().startswith("--"):
            current.comments += 1
        elif line.startswith((" ", "unfolding ")):
            current.lines.append(line)
            if re.match(r"(pub )?data ", current.lines[0]) and re.match(r"  \S+ :", line):
                module.constructors[line.split()[0]] = current.name
        else:
            current = begun(line, path, module, comments)
            current.lines.append(line)
            comments = 0
    return module


def find(path, name):
    """Returns the definition that a name of a module resolves to, or its path if it is outside of specs/. Exits if it is unknown."""
    module = read(path)
    if not module:
        return f"{path}.{name}"
    name = module.constructors.get(name, name)
    if name in module.definitions:
        return module.definitions[name]
    if name in module.passed:
        return find(*module.passed[name])
    sys.exit(f"definitions.py: {path} has no {name}")


def looked_up(words, module, path):
    """Yields what dotted names resolve to: definitions of specs/, or paths outside of them. Unknown names are skipped."""
    for word in words:
        first, *others = word.split(".")
        if others and first in module.modules:
            there = (module.modules[first], others[0])
        elif first in module.definitions or first in module.constructors:
            there = (path, first)
        elif first in module.names:
            there = module.names[first]
        else:
            continue
        yield find(*there)


def bound(definition, module):
    """Returns the names that a definition binds: its arguments and fields, and those in patterns."""
    text = "\n".join(definition.lines)
    groups = re.findall(r"λ ([^.]*)\.\s", text) + re.findall(r"[({]([^(){}:]*?) : ", text)
    groups += re.findall(r"let (\S+) =", text) + re.findall(r"[|\[] ([^|↦]*?) ↦", text)
    for line in definition.lines:
        head = re.split(r" =(?: |$)", line)[0]
        if not line.startswith(" ") and head != line and line.split()[0] == definition.name:
            groups.append(head[len(definition.name) :])
    words = {word for group in groups for word in re.findall(WORD, group)}
    return {it for it in words if it not in module.constructors and it[0].islower()}


@functools.cache
def named(definition):
    """Returns the definitions, and the paths outside of specs/, that a definition names."""
    module = read(definition.module)
    text = re.sub(r'"(?:\\.|[^"\\])*"', " ", "\n".join(definition.lines))
    text = re.sub(r"(?m)^( +(?:pub )?)\S+ :|(?<=[{;] )\S+ =(?= )|(?<=^  )\S+ =(?= )", " ", text)
    own = bound(definition, module) | {definition.name}
    words = [it for it in PATH.findall(text) if it.split(".")[0] not in own]
    return [it for it in looked_up(words, module, definition.module) if it is not definition]


def ghosts_of(tokens):
    """Yields the name and the tokens of each ghost item of an impl or a trait."""
    depth, at = 0, 0
    while at < len(tokens):
        text = tokens[at].text
        if depth == 0 and text == "ghost" and tokens[at + 1].text != "use":
            brace = next(i for i in range(at, len(tokens)) if tokens[i].text == "{")
            yield tokens[at + 1].text, tokens[brace : past_group(tokens, brace)]
        depth += (text in ("{", "(")) - (text in ("}", ")"))
        at += 1


def cited(items, wanted, inside=None):
    """Yields the tokens of the contracts of public functions, or of those in `wanted`, and of the ghost items of traits and impls."""
    for item in items:
        if item.kind == "fn" and (item.name in wanted if wanted else item.public or inside):
            yield item.value
        if item.kind in ("trait", "impl"):
            of = "".join(it.text for it in item.trait) or (item.kind == "trait" and item.name)
            yield from cited(items_of(item.body), wanted, of)
            if of and not wanted:
                yield from (value for name, value in ghosts_of(item.body) if of != "Model" or name == "Value")


def paths_of(tokens):
    """Returns the dotted names in clauses. The point that ends the arguments of a λ is not part of a name."""
    paths, joined, binds = [], False, False
    for token in tokens:
        if token.kind == "name" and joined:
            paths[-1] += "." + token.text
        elif token.kind == "name":
            paths.append(token.text)
        joined = token.text == "." and not binds and bool(paths)
        binds = token.text == "λ" or binds and token.text != "."
    return paths


@functools.cache
def read_source(path):
    """Returns the items of a source, and the names that its ghost imports declare."""
    text = re.sub(r"#\[cfg\(test\)\]\s*mod \w+;", "", (ROOT / path).read_text(encoding="utf-8")).split("#[cfg(test)]")[0]
    module = Module()
    for use in re.findall(r"ghost (use [^;]*);", text):
        note_use(USE.fullmatch(" ".join(use.split())), module)
    return items_of(tokens_of(text)), module


def cited_by(path, wanted):
    """Returns the definitions that the contracts of a source cite: those of the functions in `wanted`, or of all public ones."""
    items, module = read_source(path)
    return [it for tokens in cited(items, wanted) for it in looked_up(paths_of(tokens), module, "")]


@functools.cache
def of_source(name):
    """Returns the definitions that the contracts of a source, or of some of its functions, cite. Exits with a message if there are none."""
    path, _, wanted = name.partition(":")
    found = cited_by(path, set(filter(None, wanted.split(","))))
    if not found:
        sys.exit(f"definitions.py: {name} cites nothing")
    return found


def of_name(name):
    return of_source(name) if ".rt" in name else [find(*name.rsplit(".", 1))]


def excluded(name):
    """Returns the definitions that are not followed: those of a module, or a single definition."""
    module = read(name)
    return list(module.definitions.values()) if module else [find(*name.rsplit(".", 1))]


def all_of(names):
    return reached(tuple(names))


@functools.cache
def reached(names):
    """Returns all definitions reachable from some names, in the order in which they are met, and the paths outside of specs/."""
    ends = [end for it in names if it.startswith("-") for end in excluded(it[1:])]
    left = [found for it in names if not it.startswith("-") for found in of_name(it)]
    met = dict.fromkeys(ends)
    while left:
        it = left.pop(0)
        if it not in met:
            met[it] = None
            left += [] if isinstance(it, str) else named(it)
    return [it for it in met if isinstance(it, Definition) and it not in ends], {it for it in met if isinstance(it, str)}


def by_file(definitions):
    files = {}
    for it in definitions:
        files.setdefault(file_of(it.module).relative_to(ROOT).as_posix(), []).append(it)
    return files


def lines_of(definitions):
    return sum(len(it.lines) for it in definitions)


def comments_of(definitions):
    return sum(it.comments for it in definitions)


def show(names):
    definitions, outside = all_of(names)
    for file, those in by_file(definitions).items():
        print(f"{lines_of(those):5} {file}: {' '.join(it.name for it in those)}")
    print(f"{lines_of(definitions):5} lines, {comments_of(definitions)} of comments, {len(definitions)} definitions, {len(by_file(definitions))} files")
    code = sorted({re.sub(r".*\.declared\.(.*?)(\.TheVariants)?\.\w+$", r"\1", it) for it in outside if ".declared." in it})
    library = sorted({it.removeprefix("Rattle.") for it in outside if ".declared." not in it})
    print(f"{len(code):5} types of the code: {' '.join(code)}")
    print(f"{len(library):5} names of Rattle's library, operators aside: {' '.join(library)}")


@functools.cache
def added(tables):
    """Returns what the last table adds to those before it: its definitions by file, its definitions as a list, and the table's last row."""
    if not tables:
        return {}, [], ""
    before = [it for n in range(1, len(tables)) for it in added(tables[:n])[1]]
    ends = [it for names in tables for it in names.split() if it.startswith("-")]
    seen = set(before)
    new = [it for it in all_of(tables[-1].split() + ends)[0] if it not in seen]
    row = f"| **together** | {lines_of(new)} | and {comments_of(new)} lines of comments"
    every = new + before
    return by_file(new), new, row + (f"; with the tables above {lines_of(every)} and {comments_of(every)} |\n" if before else " |\n")


def written(page):
    """Returns the page with its counts updated, and the faults of its tables."""
    tables, faults = [], []

    def table(match):
        tables.append(match["names"])
        files, rows = dict(added(tuple(tables))[0]), []
        for line in match["rows"].splitlines():
            row = ROW.fullmatch(line)
            if row and row["file"] in files:
                rows.append(line[: row.start("lines")] + f" {lines_of(files.pop(row['file']))} |{row['rest']}\n")
            elif row:
                faults.append(f"{row['file']} is in a table and has nothing new there")
        faults.extend(f"{it} is missing in a table: {' '.join(of.name for of in those)}" for it, those in files.items())
        rows.append(added(tuple(tables))[2])
        return f"<!-- definitions {match['names']} -->\n{match['head']}{''.join(rows)}\n<!-- end -->"

    return TABLE.sub(table, page), faults


def unnamed():
    """Yields a fault for each file of specs/ with definitions if its crate's README names neither the file nor its folder."""
    for file in sorted(CRATES.glob("*/specs/**/*.antt")):
        crate = CRATES / file.relative_to(CRATES).parts[0]
        module = ".".join(("Rattle", crate.name, "specs", *file.relative_to(crate / "specs").with_suffix("").parts))
        part = (crate / "README.md").read_text(encoding="utf-8").partition("## Definitions")[2].partition("\n## ")[0]
        names = re.findall(r"`([^`]*)`", part)
        if read(module).definitions and file.stem not in [it.split("/")[-1] for it in names] and file.parent.name not in names:
            yield f"{file.relative_to(ROOT)} is not in the README of its crate"


@functools.cache
def functions_in(path):
    """Returns the names of the public functions of a source."""
    text = (ROOT / path).read_text(encoding="utf-8").split("#[cfg(test)]\nmod tests {")[0]
    items = items_of(tokens_of(text))
    inner = [it for item in items if item.kind == "impl" and not item.trait for it in items_of(item.body)]
    return [it.name for it in items + inner if it.kind == "fn" and it.public]


@functools.cache
def public_sources(crate):
    """Returns the sources of a crate's public modules, and of the private modules from which they export a name."""
    left, found = [(CRATES / crate / "src/lib.rt", True)], []
    while left:
        file, is_public = left.pop()
        items = items_of(tokens_of(file.read_text(encoding="utf-8")))
        exported = {it.text for item in items if item.kind == "use" and item.public for it in item.head}
        folder = file.parent if file.name == "lib.rt" else file.with_suffix("")
        for item in items:
            if item.kind == "mod" and not item.body and not item.is_test:
                left.append((folder / f"{item.name}.rt", is_public and (item.public or item.name in exported)))
        if is_public:
            found.append(file.relative_to(ROOT).as_posix())
    return found


def theorems():
    """Yields the public functions of each `laws.rt`."""
    for file in sorted(CRATES.glob("*/src/laws.rt")):
        path = file.relative_to(ROOT).as_posix()
        yield from ((path, name) for name in functions_in(path))


def public_functions():
    """Yields the public functions of each library whose contracts cite definitions."""
    for path in (path for file in sorted(CRATES.glob("*/src/lib.rt")) for path in public_sources(file.parent.parent.name)):
        yield from ((path, name) for name in functions_in(path) if cites(path, name))


@functools.cache
def cites(path, name):
    return any(isinstance(it, Definition) for it in cited_by(path, {name}))


@functools.cache
def c_sources():
    """Returns the source of each function that the C library exports, by name."""
    return {name: file for file in sorted(C_SOURCES.glob("*.rt")) for name in re.findall(r'pub extern "C" fn (\w+)', file.read_text(encoding="utf-8"))}


def exported_functions(header):
    """Yields the functions that the header declares, each after its source. Functions that the header defines are not exported."""
    sources = c_sources()
    for name in re.findall(r"^(?!static)[a-z].*?\b(wat_\w+)\(", header, re.M):
        yield sources[name].relative_to(ROOT).as_posix() if name in sources else f"{C_SOURCES.relative_to(ROOT)}/", name


@functools.cache
def sources_with(crate, name):
    """Returns the sources of a crate that have a function of this name."""
    sources = sorted(file.relative_to(ROOT).as_posix() for file in (CRATES / crate / "src").rglob("*.rt"))
    return [path for path in sources if re.search(rf"\bfn {name}\b", (ROOT / path).read_text(encoding="utf-8"))]


def claimed_functions(claims):
    """Yields the functions in the table of claims, each with its crate and the sources that have it."""
    table = claims.partition("## Claims")[2].partition("\n## ")[0]
    for crate, functions in re.findall(r"^\| [^|]+ \| `(\w+)` \| ([^|]+) \|", table, re.M):
        for name in re.findall(r"`(?:\w+::)*(\w+)`", functions):
            yield crate, name, sources_with(crate, name)


def tabled(page):
    """Returns the sources of the page's tables, each with the functions that a table covers, or with `*` for all of them."""
    found = {}
    for match in TABLE.finditer(page):
        for name in (it for it in match["names"].split() if ".rt" in it):
            path, _, functions = name.partition(":")
            found.setdefault(path, set()).update(functions.split(",") if functions else functions_in(path) + ["*"])
    return found


def is_tabled(found, path, name):
    return bool({name, "*"} & found.get(path, set()))


def unpromised(page, claims, header):
    """Yields a fault for each promise that is in no table of the page."""
    found, text = tabled(page), re.sub(r"<!--.*?-->", "", page)
    where = f"is in no table of {PAGE.relative_to(ROOT)}"
    yield from (f"theorem {name} of {path} {where}" for path, name in theorems() if not is_tabled(found, path, name))
    yield from (f"function {name} of {path} {where}" for path, name in public_functions() if not is_tabled(found, path, name))
    for path, name in exported_functions(header):
        if f"`{name}`" not in text:
            yield f"C function {name} is not named in {PAGE.relative_to(ROOT)}"
        if not path.endswith(".rt") or cites(path, name) and not is_tabled(found, path, name):
            yield f"C function {name} {where}"
    for crate, name, sources in claimed_functions(claims):
        if not any(is_tabled(found, path, name) for path in sources):
            yield f"claimed function {name} of {crate} {where}"


def self_test():
    """Shows that seeded faults are reported."""
    page, claims, header = (file.read_text(encoding="utf-8") for file in (PAGE, CLAIMS, HEADER))
    rows = [it for it in page.splitlines(keepends=True) if ROW.fullmatch(it.rstrip("\n"))]
    assert rows and written(page) == (page, []), "the counts of the page are stale"
    for row in rows:
        match = ROW.fullmatch(row.rstrip("\n"))
        other = page.replace(row, row.replace(f"|{match['lines']}|", "| 0 |"), 1)
        assert written(other)[0] == page != other, f"a changed count of {match['file']} is not reported"
        assert written(page.replace(row, "", 1))[1], f"a missing row of {match['file']} is not reported"
    tiling = "Rattle.wat_lex.specs.tokens.Tiling.MaximalTiling"
    cut = all_of([tiling, "-Rattle.wat_lex.specs.tokens.Faults.FaultAt"])[0]
    assert 0 < len(cut) < len(all_of([tiling])[0]), "a definition after a minus sign is followed"
    seeded = self_test_of_promises(page, claims, header)
    print(f"definitions.py: {2 * len(rows)} seeded faults in rows and {seeded} in promises are reported")


def self_test_of_promises(page, claims, header):
    """Shows that a promise is reported if the page loses its table or its name, or if it is new. Returns the number of seeded faults."""
    assert not list(unpromised(page, claims, header)), "a promise is in no table"
    seeded = 0
    for path in tabled(page):
        others = re.sub(rf" {re.escape(path)}(:\S+)?(?= )", "", page)
        lost = [it for it in (*theorems(), *public_functions(), *exported_functions(header)) if it[0] == path and cites(*it)]
        assert bool(lost) <= bool(list(unpromised(others, claims, header))), f"{path} is in no table, and its promises are not reported"
        seeded += bool(lost)
    for _, name in exported_functions(header):
        assert list(unpromised(page.replace(f"`{name}`", ""), claims, header)), f"{name} is not named, and not reported"
        seeded += 1
    assert list(unpromised(page, claims, header + "\nsize_t wat_seeded(void);\n")), "an exported function without a source is not reported"
    row = "## Claims\n\n| seeded | `wat_lex` | `Lexer::seeded` |\n"
    assert list(unpromised(page, claims.replace("## Claims\n", row), header)), "a claim without a function is not reported"
    return seeded + 2


def main():
    words = sys.argv[1:]
    if not words or words[0] in ("-h", "--help"):
        sys.exit(__doc__)
    if words == ["--self-test"]:
        return self_test()
    if words not in (["--write"], ["--check"]):
        return show(words)
    old = PAGE.read_text(encoding="utf-8")
    new, faults = written(old)
    if words == ["--check"]:
        faults += [*unnamed(), *unpromised(old, *(file.read_text(encoding="utf-8") for file in (CLAIMS, HEADER)))]
    if words == ["--write"] and not faults:
        PAGE.write_text(new, encoding="utf-8")
    elif new != old:
        faults.append("the counts of docs/specification.md are stale; run tools/lint/definitions.py --write")
    for fault in faults:
        print(f"definitions.py: {fault}")
    print(f"definitions.py: {len(TABLE.findall(new))} tables, {len(faults)} faults")
    return 1 if faults else 0


if __name__ == "__main__":
    sys.exit(main())
