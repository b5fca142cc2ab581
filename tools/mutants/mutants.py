#!/usr/bin/env python3
"""Lists, checks and tries the mutants of mutants/CRATE.txt. docs/verification.md describes mutation testing, and the head of each table its records.

  list        prints crate, name, functions, clause and input of each record, separated by tabs
  check       checks that each record is complete, that its names are those of the sources, and that it can be applied; and, with
              mutants/constructors.txt, that each rule of the grammar and each kind of immediate has a mutant that inverts it
  try         has the prover check each mutant, which must be killed: first only the functions of the record and those that they call; if
              they are proved, the whole crate, since a function that only a caller's contract pins is rejected there
  self-test   shows that `check` reports faults seeded into a record and into that table

A WORD is a crate, a record's name, CRATE/NAME, or the end of a function's path, such as `TableRef::look`.

`try` uses the libraries that a crate depends on in crates/NAME/out, where `rt check` in a crate above them, `rt lib` and `rt ci` leave them. The first
mutant of a crate takes 30 to 90 seconds. Each later one takes half of that, as it reuses what they share.
"""
import argparse
import collections
import concurrent.futures
import dataclasses
import hashlib
import itertools
import os
import pathlib
import re
import shutil
import signal
import subprocess
import sys
import tempfile
import time

ROOT = pathlib.Path(__file__).resolve().parents[2]
KIT = pathlib.Path(os.path.realpath(shutil.which("rt") or "rt")).parent.parent
PARTS = ("src", "specs", "proofs")
COVERAGE = ROOT / "mutants/constructors.txt"
# The files of the definitions whose data types are the rules of the grammar, and of the enums of immediates, by name.
RULES = {
    "Grammar": "crates/wat_module_ast/specs/Grammar.antt",
    "Fields": "crates/wat_module_ast/specs/Fields.antt",
    "Modules": "crates/wat_module_ast/specs/Modules.antt",
}
KINDS = {"Immediate": "crates/wat_module_ast/src/table.rt", "Argument": "crates/wat_module_ast/src/instruction.rt"}
ORDER = re.compile(r"name file fn clause( old new)+ breaks( family)?( must-fail)?( refused-in)?( note)?")
NAME = re.compile(r"[a-z0-9]+(-[a-z0-9]+)*")
ENTRY = re.compile(r"((?P<kind>constant|type|macro|definition) )?(?P<path>.+)")
CLAUSE = re.compile(r"(?P<clause>the clause|the invariant|\w+) of (?P<of>[\w:]+)")
ITEM = re.compile(r"\s*(?:pub(?:\(\w+\))? )?(?:(?:const )?(?:unsafe )?(?:extern \"C\" )?fn|const|struct|enum|macro_rules!) (\w+)")
DECLARED = re.compile(r"\b(?:fn|struct|trait) (\w+)")
RULE = re.compile(r"^(?:pub )?data (\w+)|^  (by_\w+) :", re.MULTILINE)
VARIANT = re.compile(r"^    ([A-Z]\w*)", re.MULTILINE)
STATED = re.compile(r"\b(?:ensures\*?(?: (\w+))? \{|ghost (?!use\b)(\w+))")
STRING = re.compile(r'"(?:[^"\\]|\\.)*"')
# A function, a macro or a constructor that is called by its bare name.
CALLED = re.compile(r"(?<![\w.:])([A-Za-z_]\w*)\s*[(!]|(?<![\w.:])([A-Z]\w*)(?=::|\s*\{)")
PRELUDE = {"Some", "None", "Ok", "Err", "Vec", "String", "Box", "if", "match", "return", "while", "matches", "drop"}
QUIET = {"stdin": subprocess.DEVNULL, "stdout": subprocess.PIPE, "check": False}
LOST = re.compile(r"error: `\w+` has no function|fits more than one|several functions")
ENDED = re.compile(r"only=(\d+) proved=(\d+)")
ERROR = re.compile(r"\S+:\d+:\d+: error")


class Fault(Exception):
    """A fault of a record or of the command line."""


@dataclasses.dataclass(frozen=True)
class Record:
    """A mutant: the values of its keys, and its pairs of old and new text."""

    crate: str
    name: str
    file: str
    fn: str
    clause: str
    pairs: tuple
    breaks: str
    family: bool
    must_fail: bool

    def entries(self):
        """Returns the kind and the path of each edited item. The kind of a function is `None`."""
        return [ENTRY.fullmatch(it).group("kind", "path") for it in self.fn.split(", ")]

    def source(self):
        return ROOT / "crates" / self.crate / self.file

    def must_fail_file(self):
        return ROOT / "crates" / self.crate / "must-fail" / f"{self.name}.edit"

    def edit(self):
        """Returns the record in the format of the toolchain."""
        return f"file: {self.file}\n" + "".join(f"old: {old}\nnew: {new}\n" for old, new in self.pairs)


# Parsing


def record_of(crate, lines):
    """Parses a record. Raises `Fault` if a key is missing or out of order, if a value is empty, or if a flag is not `yes`."""
    pairs = [(key, value.removeprefix(" ")) for key, _, value in (line.partition(":") for line in lines)]
    keys, values = " ".join(key for key, _ in pairs), dict(pairs)
    if not ORDER.fullmatch(keys):
        raise Fault(f"{values.get('name', lines[0])}: its keys are not in order, or not all there: {keys}")
    empty = [key for key, value in pairs if not value and key != "new"]
    if empty or {values.get("family", "yes"), values.get("must-fail", "yes")} != {"yes"}:
        raise Fault(f"{values['name']}: {', '.join(empty)} is empty, or `family` or `must-fail` is not yes")
    texts = [value for key, value in pairs if key in ("old", "new")]
    plain = {key: values[key] for key in ("name", "file", "fn", "clause", "breaks")}
    marks = {"family": "family" in values, "must_fail": "must-fail" in values}
    return Record(crate=crate, pairs=tuple(zip(texts[::2], texts[1::2])), **plain, **marks)


def records_of(crate, text):
    """Parses the records of a table, which are separated by empty lines. A line that begins with `#` is a comment."""
    lines = [line for line in text.splitlines() if not line.startswith("#")]
    return [record_of(crate, list(part)) for some, part in itertools.groupby(lines, bool) if some]


def tables():
    return {path.stem: path.read_text(encoding="utf-8") for path in sorted(ROOT.glob("mutants/*.txt")) if path != COVERAGE}


def all_records():
    return [it for crate, text in tables().items() for it in records_of(crate, text)]


def fits(record, word):
    """Returns `True` if a word that is not a crate selects this record."""
    named = word in (record.name, f"{record.crate}/{record.name}")
    return named or any(path == word or path.endswith(f"::{word}") for _, path in record.entries())


def meant_by(word, records):
    found = [it for it in records if it.crate == word] or [it for it in records if fits(it, word)]
    if not found:
        raise Fault(f"no crate, record or function is named {word}")
    return found


def chosen_by(words):
    records = all_records()
    return [it for word in words for it in meant_by(word, records)]


# Checking


def applied(record):
    """Returns the text of the record's file with its pairs applied. Raises `Fault` if an old text does not occur exactly once, or is the new one."""
    text = record.source().read_text(encoding="utf-8")
    for old, new in record.pairs:
        found = text.count(old)
        if found != 1:
            raise Fault(f"its old text is in {record.file} {found} times: {old.strip()}")
        if old == new:
            raise Fault(f"its old text is its new one: {old.strip()}")
        text = text.replace(old, new)
    return text


def item_at(text, at):
    """Returns the name of the nearest item that begins in the line of an offset or above it, or `None`."""
    lines = text[:at].splitlines() + [text[at:].partition("\n")[0]]
    return next((found[1] for found in map(ITEM.match, reversed(lines)) if found), None)


def check_functions(record):
    """Checks that the record's file declares its functions, and that one of its pairs changes one of them. Raises `Fault` otherwise."""
    text = record.source().read_text(encoding="utf-8")
    names = [path.rpartition("::")[2] for kind, path in record.entries() if kind != "definition"]
    missing = [it for it in names if not re.search(rf"\b(fn|const|struct|enum|macro_rules!) {it}\b", text)]
    if missing:
        raise Fault(f"{record.file} declares no {', '.join(missing)}")
    around = {item_at(text, text.index(old)) for old, _ in record.pairs if old in text}
    if names and not around & set(names):
        raise Fault(f"it changes {', '.join(map(str, around))}, and not {record.fn}")


def clauses():
    """Returns for each function, type and trait the clauses in the files that declare one of this name. An unnamed clause is `the clause`."""
    found = collections.defaultdict(set)
    for path in ROOT.glob("crates/*/src/**/*.rt"):
        text = path.read_text(encoding="utf-8")
        named = {clause or ghost or "the clause" for clause, ghost in STATED.findall(text)}
        for name in DECLARED.findall(text):
            found[name] |= named
    return found


def check_clauses(record, stated):
    """Checks that each clause of the record is in a file that declares its function. Raises `Fault` otherwise."""
    for part in record.clause.split("; "):
        found = CLAUSE.fullmatch(part)
        if not found:
            raise Fault(f"its clause is not written as `NAME of FUNCTION`: {part}")
        if found["clause"].replace("the invariant", "invariant") not in stated[found["of"].rpartition("::")[2]]:
            raise Fault(f"no source has this clause: {part}")


def check_calls(record):
    """Checks that the new texts call only functions and name only types that the record's file names, or that they declare. Raises `Fault` otherwise."""
    if not record.file.startswith("src/"):
        return
    lines = record.source().read_text(encoding="utf-8").splitlines()
    known = set(re.findall(r"\w+", " ".join(line for line in lines if "ghost" not in line))) | PRELUDE
    new = STRING.sub("", " ".join(text for _, text in record.pairs if "ensures" not in text))
    declared = set(re.findall(r"\bfn (\w+)", " ".join(text for _, text in record.pairs)))
    unknown = {one or other for one, other in CALLED.findall(new)} - known - declared
    if unknown:
        raise Fault(f"{record.file} does not name {', '.join(sorted(unknown))}")


def check_record(record, stated):
    if not NAME.fullmatch(record.name):
        raise Fault("its name is not words with dashes between them")
    if not record.file.startswith(tuple(f"{part}/" for part in PARTS)) or not record.source().is_file():
        raise Fault(f"{record.file} is no source, definition or proof")
    applied(record)
    check_functions(record)
    check_calls(record)
    check_clauses(record, stated)
    file = record.must_fail_file()
    if file.is_file() != record.must_fail or record.must_fail and file.read_text(encoding="utf-8") != record.edit():
        raise Fault(f"{file.relative_to(ROOT)} is not there with its text, or is there without `must-fail: yes`")


def faults_of(records):
    """Returns the faults of parsed records."""
    stated = clauses()
    names = collections.Counter(f"{it.crate}/{it.name}" for it in records)
    faults = [f"{name}: two records have this name" for name, count in names.items() if count > 1]
    for record in records:
        try:
            check_record(record, stated)
        except Fault as fault:
            faults.append(f"{record.crate}/{record.name}: {fault}")
    files = {it.must_fail_file() for it in records}
    return faults + [f"{file.relative_to(ROOT)}: no record" for file in sorted(ROOT.glob("crates/*/must-fail/*")) if file not in files]


def rules_of(text):
    """Returns the constructors `by_..` of the data types in these definitions, in order, as TYPE.RULE."""
    of, rules = "", []
    for data, rule in RULE.findall(text):
        of = data or of
        rules += [f"{of}.{rule}"] if rule else []
    return rules


def kinds_of(enum, text):
    """Returns the variants of an enum in order, or an empty list if the text has no such enum."""
    found = re.search(rf"\benum {enum} \{{\n(.*?)\n\}}", text, re.DOTALL)
    return VARIANT.findall(found[1]) if found else []


def read(path):
    return (ROOT / path).read_text(encoding="utf-8")


def constructors(text_of):
    """Returns what must have a mutant that inverts it: the rules of the grammar and the kinds of immediates. `text_of` returns the text of a file."""
    rules = [f"{name}.{rule}" for name, path in RULES.items() for rule in rules_of(text_of(path))]
    return rules + [f"{name}.{kind}" for name, path in KINDS.items() for kind in kinds_of(name, text_of(path))]


def coverage_faults(text, wanted, names):
    """Returns the faults of mutants/constructors.txt, given its text, the constructors that it must list, and the names of all records."""
    lines = [line for line in text.splitlines() if line and not line.startswith("#")]
    rows = [line.partition("\t")[::2] for line in lines]
    faults = [f"{line}: it is there twice" for line, count in collections.Counter(lines).items() if count > 1]
    faults += [f"{line}: no rule or kind is {name}" for line, (name, _) in zip(lines, rows) if name not in wanted]
    faults += [f"{line}: no record is {record or 'said'}" for line, (_, record) in zip(lines, rows) if record not in names]
    listed = [name for name, _ in itertools.groupby(name for name, _ in rows)]
    faults += [f"{name}: no record inverts it" for name in wanted if name not in listed]
    if not faults and listed != wanted:
        faults = ["the order is not that of the sources"]
    return [f"{COVERAGE.relative_to(ROOT)}: {fault}" for fault in faults]


def check(_asked):
    records, faults = [], []
    for crate, text in tables().items():
        try:
            records += records_of(crate, text)
        except Fault as fault:
            faults.append(f"mutants/{crate}.txt: {fault}")
    faults += faults_of(records)
    faults += coverage_faults(read(COVERAGE), constructors(read), {f"{it.crate}/{it.name}" for it in records})
    print("\n".join([*faults, f"mutants.py: {len(records)} records, {len(faults)} faults"]))
    return 1 if faults or not records else 0


# Trying


def only(record):
    """Returns the functions and types to check, otherwise the modules of the edited constants and macros; an empty list for the whole crate."""
    entries = record.entries()
    modules = {path.rpartition("::")[0] for kind, path in entries if kind in ("constant", "macro")}
    return [path for kind, path in entries if kind in (None, "type")] or sorted(modules - {""})


def libraries(crate):
    """Returns the arguments with which a check of the crate finds its libraries, and its crate type. Raises `Fault` if a library is missing."""
    lines = {}
    for line in (ROOT / "crates.txt").read_text(encoding="utf-8").splitlines():
        name, colon, below = line.partition(":")
        if colon:
            lines[name.split()[0]] = (name.split()[1:], below.split())
    kind, below = lines[crate]
    built = {it: ROOT / "crates" / it / "out" / "rlib" / f"{it}.rlib" if it in lines else KIT / "rlibs" / f"{it}.rlib" for it in below}
    missing = [str(path) for path in built.values() if not path.exists()]
    if missing:
        raise Fault(f"run rt check in crates/{crate} first, which makes its libraries: {missing[0]} is not there")
    words = ["--crate-type", "staticlib"] if kind else []
    words += [word for it, path in built.items() for word in ("--extern", f"{it}={path}")]
    return words + [word for it in lines for word in ("-L", f"dependency={ROOT / 'crates' / it / 'out' / 'rlib'}")]


def prove(record, paths, kept):
    """Checks the items of these paths, or all if there are none, in a copy of the crate with the mutant, reusing the results in `kept`.

    Returns the exit status and the output.
    """
    with tempfile.TemporaryDirectory(prefix="mutants-") as room:
        for part in PARTS:
            if (record.source().parents[len(pathlib.Path(record.file).parts) - 1] / part).is_dir():
                shutil.copytree(ROOT / "crates" / record.crate / part, f"{room}/{part}")
        pathlib.Path(room, record.file).write_text(applied(record), encoding="utf-8")
        top = "src/main.rt" if pathlib.Path(room, "src/main.rt").is_file() else "src/lib.rt"
        words = [KIT / "bin/rattle", "check", "--crate-name", record.crate, top, *libraries(record.crate)]
        words += ["--extern", f"std={KIT / 'rlibs/std.rlib'}", "-L", f"dependency={KIT / 'rlibs'}"]
        words += ["--antt-project", KIT / "rattle/logic/antt-project.json"]
        words += ["--logic-built", KIT / "logic_built", "--links", f"{record.crate}=", "--jobs", "1", "--incremental", kept]
        words += [word for path in paths for word in ("--only", path)]
        ran = subprocess.run(words, cwd=room, **QUIET, stderr=subprocess.STDOUT, errors="replace")
        return ran.returncode, ran.stdout


def tried(record, kept):
    """Returns the outcome of a mutant, and the message of the prover."""
    for paths in [only(record), []] if only(record) else [[]]:
        status, said = prove(record, paths, kept)
        if paths and LOST.search(said):
            continue
        lines = said.rstrip("\n").split("\n")
        ended = ENDED.match(lines[-1]) or lines[-1].startswith("logic=")
        if status == 1 and ended:
            first = next((it for it in lines if ERROR.match(it)), lines[-1])
            return "refused", f"{' '.join(paths) or 'the whole crate'}: {first[:140]}"
        if status not in (0, 1) or not ended:
            return "NOT TRIED", " / ".join(lines[:4])[:300]
    return "NOT REFUSED", "the crate is proved with it"


def lane(records):
    """Tries the mutants of one crate in turn, each reusing the results of those before it. Returns the number of mutants that were not killed."""
    bad = 0
    with tempfile.TemporaryDirectory(prefix="mutants-kept-") as kept:
        for record in records:
            begun = time.monotonic()
            what, why = tried(record, kept)
            bad += what != "refused"
            print(f"{record.crate}/{record.name}: {what} ({time.monotonic() - begun:.0f} s): {why}", flush=True)
    return bad


def in_lanes(records, lanes):
    """Tries mutants in parallel lanes, among which those of large crates are split evenly. Returns 1 if a mutant was not killed, otherwise 0."""
    crates = collections.defaultdict(list)
    for record in records:
        crates[record.crate].append(record)
    share = max(1, -(-len(records) // lanes))
    parts = [row[i : i + share] for row in crates.values() for i in range(0, len(row), share)]
    with concurrent.futures.ThreadPoolExecutor(lanes) as pool:
        bad = sum(pool.map(lane, sorted(parts, key=len, reverse=True)))
    print(f"mutants.py: {len(records) - bad} of {len(records)} mutants were killed")
    return 1 if bad else 0


def by_kit(records):
    """Tries mutants with `rt must-fail`, which reports more and takes longer. Their files are in crates/NAME/must-fail only during that time."""
    signal.signal(signal.SIGTERM, lambda *_: sys.exit(143))
    files = [it.must_fail_file() for it in records if not it.must_fail]
    made = sorted({it.parent for it in files if not it.parent.is_dir()})
    try:
        for record in records:
            record.must_fail_file().parent.mkdir(exist_ok=True)
            record.must_fail_file().write_text(record.edit(), encoding="utf-8")
        crates = sorted({it.crate for it in records})
        return subprocess.run(["rt", "must-fail", *crates], cwd=ROOT, stdin=subprocess.DEVNULL, check=False).returncode
    finally:
        for file in files:
            file.unlink(missing_ok=True)
        for folder in made:
            folder.rmdir()


def sample(number, seed):
    """Returns at most `number` mutants of one crate. The seed chooses them; a crate with more mutants is chosen more often."""
    hashes = {it: hashlib.sha256(f"{seed} {it.crate}/{it.name}".encode()).hexdigest() for it in all_records()}
    records = sorted(hashes, key=hashes.get)
    return [it for it in records if it.crate == records[0].crate][:number]


def git(*words):
    return subprocess.run(["git", *words], cwd=ROOT, **QUIET, stderr=subprocess.DEVNULL, text=True).stdout


def changed(base):
    """Returns the mutants that are new or changed since a commit, or whose file is. Raises `Fault` if `base` is not a commit."""
    if not git("rev-parse", "--verify", f"{base}^{{commit}}"):
        raise Fault(f"{base} is no commit")
    files = git("diff", "--name-only", "-M100%", "--diff-filter=AMT", base, "--") + git("ls-files", "--others", "--exclude-standard")
    before = {it.edit() + it.crate for crate in tables() for it in records_of(crate, git("show", f"{base}:mutants/{crate}.txt"))}
    now = set(files.splitlines())
    return [it for it in all_records() if it.edit() + it.crate not in before or str(it.source().relative_to(ROOT)) in now]


def try_them(asked):
    records = chosen_by(asked.words)
    records += [it for it in all_records() if it.family] if asked.families else []
    records += sample(int(asked.sample[0]), asked.sample[1]) if asked.sample else []
    records += changed(asked.changed) if asked.changed else []
    records = list(dict.fromkeys(records))
    if not records and not asked.changed:
        raise Fault("nothing is asked for: name records, or give --families, --sample or --changed")
    if asked.whole:
        return by_kit(records)
    return in_lanes(records, asked.lanes)


def list_them(asked):
    for it in chosen_by(asked.words) if asked.words else all_records():
        print(f"{it.crate}\t{it.name}\t{it.fn}\t{it.clause}\t{it.breaks}")
    return 0


# Self-test

WRONG = {
    "a key is missing": (r"breaks: .*", "# breaks", "its keys are not in order"),
    "a value is missing": (r"breaks: .*", "breaks:", "is empty"),
    "an old text is there twice": (r"old: .*", "old: ensures", "its old text is in"),
    "an old text is not there": (r"old: .*", "old: no such text", "its old text is in"),
    "it changes nothing": (r"new: .*", "new: {old}", "its old text is its new one"),
    "it calls a function that is not there": (r"new: .*", "new: no_such_function()", "does not name no_such_function"),
    "a function is not there": (r"fn: .*", "fn: no::such_function", "declares no such_function"),
    "another function is named": (r"fn: .*", "fn: {other}", "it changes"),
    "a clause is not there": (r"clause: .*", "clause: no_such of {fn}", "no source has this clause"),
    "the file is not there": (r"file: .*", "file: src/no_such.rt", "is no source"),
}
# Faults of the first row of mutants/constructors.txt, or of the sources: the file, a pattern, its replacement, and the message that reports the
# fault.
WRONG_COVERAGE = {
    "a row is left out": (COVERAGE, r"(?m)^Grammar\.Instructions\.by_none\t.*\n", "", "no record inverts it"),
    "a row has no record": (COVERAGE, r"(?m)^(\w.*\t).*", r"\1", "no record is said"),
    "a row's record is not there": (COVERAGE, r"(?m)^(\w.*\t).*", r"\1wat_module_ast/no-such", "no record is wat_module_ast/no-such"),
    "a row's rule is not there": (COVERAGE, r"(?m)^\w.*\t", "Grammar.Instructions.by_no_such\t", "no rule or kind is"),
    "a row is there twice": (COVERAGE, r"(?m)^\w.*\n", r"\g<0>\g<0>", "it is there twice"),
    "a rule has no row": (RULES["Fields"], r"(?m)^  by_.*\n", r"  by_no_such : Field\n\g<0>", "by_no_such: no record inverts it"),
    "a kind has no row": (KINDS["Immediate"], r"(?m)^    No,\n", r"\g<0>    NoSuch(u8),\n", "Immediate.NoSuch: no record inverts it"),
}


def missed_in_record():
    """Returns the faults of `WRONG` that are not reported when seeded into the first record of a plain function."""
    record = next(it for it in all_records() if it.entries()[0][0] is None)
    text = next(part for part in tables()[record.crate].split("\n\n") if part.startswith(f"name: {record.name}\n"))
    name = record.entries()[0][1].rpartition("::")[2]
    others = set(re.findall(r"\bfn (\w+)", record.source().read_text(encoding="utf-8"))) - {name}
    words = {"old": record.pairs[0][0], "fn": name, "other": min(others)}
    missed = []
    for what, (old, new, wanted) in WRONG.items():
        try:
            found = faults_of(records_of(record.crate, re.sub(old, lambda _, new=new: new.format(**words), text, count=1)))
        except Fault as fault:
            found = [str(fault)]
        missed += [] if any(wanted in it for it in found) else [f"{what}: {found}"]
    return missed


def missed_in_table():
    """Returns the faults of `WRONG_COVERAGE` that are not reported."""
    names = {f"{it.crate}/{it.name}" for it in all_records()}
    missed = []
    for what, (file, old, new, wanted) in WRONG_COVERAGE.items():
        def changed_read(path, file=file, old=old, new=new):
            return re.sub(old, new, read(path), count=1) if path == file else read(path)

        found = coverage_faults(changed_read(COVERAGE), constructors(changed_read), names)
        missed += [] if any(wanted in it for it in found) else [f"{what}: {found}"]
    return missed


def self_test(_asked):
    """Checks that each fault seeded into a record, mutants/constructors.txt or the sources is reported. Returns 1 if one is not, otherwise 0."""
    missed, planted = missed_in_record() + missed_in_table(), len(WRONG) + len(WRONG_COVERAGE)
    print("\n".join([*missed, f"mutants.py: {planted - len(missed)} of {planted} faults were found"]))
    return 1 if missed else 0


def arguments():
    parser = argparse.ArgumentParser(description=__doc__, formatter_class=argparse.RawDescriptionHelpFormatter)
    commands = parser.add_subparsers(required=True, metavar="COMMAND")
    listing = commands.add_parser("list", help="print the records")
    listing.set_defaults(run=list_them)
    listing.add_argument("words", nargs="*", metavar="WORD")
    commands.add_parser("check", help="check that each can be applied").set_defaults(run=check)
    commands.add_parser("self-test", help="check the check").set_defaults(run=self_test)
    trying = commands.add_parser("try", help="have the prover reject them")
    trying.set_defaults(run=try_them)
    trying.add_argument("words", nargs="*", metavar="WORD")
    trying.add_argument("--families", action="store_true", help="those with `family: yes`")
    trying.add_argument("--sample", nargs=2, metavar=("N", "SEED"), help="N of one crate, which SEED chooses")
    trying.add_argument("--changed", metavar="BASE", help="those that changed since the commit BASE, or whose file did")
    trying.add_argument("--lanes", type=int, default=os.cpu_count() or 1, metavar="N", help="how many are tried at a time")
    trying.add_argument("--whole", action="store_true", help="by rt must-fail, over a check of the whole crate")
    return parser


def main():
    asked = arguments().parse_args()
    try:
        return asked.run(asked)
    except Fault as fault:
        print(f"mutants.py: {fault}", file=sys.stderr)
        return 2


if __name__ == "__main__":
    sys.exit(main())
