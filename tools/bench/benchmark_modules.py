#!/usr/bin/env python3
"""Benchmarks compilers of modules: MODULE, which is rust/wat-modules/examples/module.rs, against `wat2wasm --no-check` of Debian's wabt and, if
ENCODER is given, against wast's own encoder, the program that tools/differential/wast_encoder.sh builds. Each text is of one kind that is frequent in
programs: functions, calls, constants, data, names. Processes run in turn, with output to /dev/null. A time is the median of the user and system
times; a memory is the largest resident size, in 10^6 bytes; instructions are counted by callgrind, in 10^6, less those for an empty module, on
texts of 10% of the size, except the real ones. All programs must write the same module, which is checked first. Rows of validation are of `MODULE
--validate` against `wat2wasm`, on the texts that are valid modules. Writes docs/speed/modules.tsv.

A row of times or instructions with a ratio below 1.5 has its reason in its last column, from BELOW. The status is 1 if a row lacks one, or if a
reason has no row.

usage: benchmark_modules.py MODULE FOLDER [ENCODER] [--rounds N]     FOLDER gets the texts
       benchmark_modules.py --counts MODULE FOLDER ENCODER           measures only memory and instructions, which no load changes
       benchmark_modules.py --instructions MODULE FOLDER ENCODER [--jobs N]
                                                                     measures only instructions, of N texts at a time, and compares the modules of
                                                                     those texts only
       benchmark_modules.py --times MODULE FOLDER ENCODER            measures only times
       benchmark_modules.py --reasons                                writes the reasons to docs/speed/modules.tsv
       benchmark_modules.py --check                                  checks the reasons in docs/speed/modules.tsv
"""
import argparse
import concurrent.futures
import datetime
import os
import pathlib
import random
import re
import statistics
import subprocess
import sys
import tempfile

sys.dont_write_bytecode = True
sys.path.append(str(pathlib.Path(__file__).resolve().parents[1] / "differential"))

from benchmark_programs import linked, output
from generate_modules import FORMS, big_module, choices
from module_sections import agreement

DATA = pathlib.Path(__file__).resolve().parents[2] / "docs/speed/modules.tsv"
BOUND = 1.5
# The number of parts of a text of which one is read to count instructions.
PART = 10
TIMES, MEMORY, INSTRUCTIONS = "modules", "memory, modules", "instructions, modules"
VALIDATED_TIMES, VALIDATED_MEMORY, VALIDATED_INSTRUCTIONS = "validation", "memory, validation", "instructions, validation"
# The lines of the table with the commits at which memory was measured and instructions were counted, and that with the names of its columns.
MEASURED, COUNTED = "# Memory, in 10^6 bytes:", "# Instructions, in 10^6:"
COLUMNS = "# suite\ttext\tcall\tours\tother\tratio\treason if a ratio of times or instructions is below 1.5"
WABT, ENCODER = "module, wat2wasm --no-check", "module, wast's encoder"
# The texts that are not valid: their functions have random instructions.
INVALID = {"functions"}

# The reasons of ratios below the bound, of a kind in a suite or, with the call, of one of its ratios. Percentages are of our instructions.
AS_PACKED = "lexing and packing tokens take {}%"
IN_MAP = "names in a sorted map take {}%"
IN_MEMORY = "copies and allocations of fields and vectors take {}%"
SECTION = "the name section, which wat2wasm does not write, takes {}%"
ESCAPES = "a string is read twice: the scan for its end takes {}%, the decoding {}%"
SHORT_TOKENS = "tokens have few bytes: {}"
UNVALIDATED = "like the ratio without validation, which takes {}%"


def reason(parts):
    """Returns a reason of parts, each with its percentage."""
    return "; ".join(part.format(percentage) for part, percentage in parts.items())


BELOW = {
    (TIMES, "locals"): f"{AS_PACKED.format(56)}; the time is of a build before tokens were packed as the parser moves",
    (TIMES, "named_locals"): reason({IN_MAP: 16}),
    (TIMES, "vectors"): SHORT_TOKENS.format(AS_PACKED.format(56)),
    (INSTRUCTIONS, "calls", WABT): reason({IN_MEMORY: 24, IN_MAP: 21, AS_PACKED: 20, SECTION: 4}),
    (INSTRUCTIONS, "data", WABT): ESCAPES.format(44, 46),
    (INSTRUCTIONS, "data_letters", WABT): ESCAPES.format(51, 37),
    (INSTRUCTIONS, "elements", ENCODER): reason({IN_MAP: 39, AS_PACKED: 35}),
    (INSTRUCTIONS, "folded", ENCODER): SHORT_TOKENS.format(AS_PACKED.format(49)),
    (INSTRUCTIONS, "globals", WABT): reason({AS_PACKED: 35, IN_MEMORY: 20, IN_MAP: 14, SECTION: 4}),
    (INSTRUCTIONS, "imports", WABT): reason({AS_PACKED: 37, IN_MEMORY: 19, IN_MAP: 13, SECTION: 4}),
    (INSTRUCTIONS, "named_locals", WABT): reason({AS_PACKED: 49, IN_MAP: 21, IN_MEMORY: 12, SECTION: 4}),
    (VALIDATED_INSTRUCTIONS, "data"): UNVALIDATED.format(0),
    (VALIDATED_INSTRUCTIONS, "data_letters"): UNVALIDATED.format(0),
    (VALIDATED_INSTRUCTIONS, "imports"): UNVALIDATED.format(4),
    (VALIDATED_INSTRUCTIONS, "named_locals"): UNVALIDATED.format(0),
}

VALUES = ["i32", "i64", "f32", "f64"]
# Forms that one of the other programs rejects or reads differently.
LEFT_OUT = {"saturating", "memory", "tables", "references", "reference-types", "typed-select", "vectors"}


def module(fields):
    return f"(module\n{fields})\n"


def each(count, line):
    return "".join(f"{line(i)}\n" for i in range(count))


def function(count, line):
    return module(f"(func\n{each(count, line)})\n")


def escaped(rng, count):
    return "".join(rng.choice([f"\\{rng.randrange(256):02x}", rng.choice("abcdefgh")]) for _ in range(count))


def lettered(rng, count):
    return "".join(rng.choice([f"\\{rng.choice('nrt')}", '\\"', *"abcdef"]) for _ in range(count))


def types(i):
    """Returns 8 value types, which are different for each `i` below 65,536."""
    return " ".join(VALUES[i >> 2 * k & 3] for k in range(8))


def elements(rng, count):
    """Returns a module with a table whose inline element segment has that many function names."""
    names = " ".join(f"$f{rng.randrange(2_000)}" for _ in range(count))
    return module(each(2_000, lambda i: f"(func $f{i})") + f"(table funcref (elem {names}))")


def functions(count):
    """Returns a module of random functions with names. Its memory arguments have no underscores, as the other programs do not accept them."""
    text = big_module(choices(7, FORMS.keys() - LEFT_OUT), count, True)
    return re.sub(r"(?:offset|align)=\S+", lambda found: found[0].replace("_", ""), text)


def kinds(rng, part):
    """Returns the texts by name, with one of `part` parts of their fields or instructions."""
    return {
        "blocks": function(100_000 // part, lambda i: "block i32.const 1 if nop else nop end end"),
        "branches": function(4_000 // part, lambda i: f"block block i32.const 0 br_table {'0 1 ' * 50}end end"),
        "calls": module(each(80_000 // part, lambda i: f"(func $f{i} call $f{i * 7919 % (80_000 // part)})")),
        "comments": function(200_000 // part, lambda i: "nop (; a comment that says what it is ;)"),
        "data": module("(memory 1000)\n" + each(4_000 // part, lambda i: f'(data (i32.const {i * 2_000}) "{escaped(rng, 2_000)}")')),
        "data_letters": module("(memory 1000)\n" + each(4_000 // part, lambda i: f'(data (i32.const {i * 2_000}) "{lettered(random.Random(i), 2_000)}")')),
        "elements": elements(rng, 400_000 // part),
        "exports": module("(func)\n" + each(100_000 // part, lambda i: f'(export "name{i}" (func 0))')),
        "floats": function(200_000 // part, lambda i: f"f64.const {rng.random()!r} drop"),
        "folded": module("(func (local i32)\n" + each(100_000 // part, lambda i: "(drop (i32.add (i32.const 1) (i32.mul (local.get 0) (i32.const 2))))") + ")\n"),
        "functions": functions(15_000 // part),
        "globals": module(each(100_000 // part, lambda i: f"(global $g{i} (mut i32) (i32.const {i}))")),
        "imports": module(each(100_000 // part, lambda i: f'(import "env" "f{i}" (func $f{i} (param i32)))')),
        "indirect": module("(table 1 funcref)\n(func\n" + each(100_000 // part, lambda i: "i32.const 1 i32.const 0 call_indirect (param i32) (result i64) drop") + ")\n"),
        "integers": function(300_000 // part, lambda i: f"i32.const {rng.randrange(1 << 31)} drop"),
        "loads": module("(memory 1)\n(func\n" + each(150_000 // part, lambda i: f"i32.const 1 i32.load offset={i * 4} align=4 drop") + ")\n"),
        "locals": module(each(200 // part, lambda i: f"(func (local {'i32 ' * 1_000}))")),
        "named_locals": module(each(200 // part, lambda i: "(func " + "".join(f"(local $x{k} i32) " for k in range(1_000)) + "(local.set $x999 (local.get $x500)))")),
        "types": module(each(40_000 // part, lambda i: f"(func (param {types(i)}))")),
        "vectors": function(40_000 // part, lambda i: "v128.const i32x4 1 2 3 4 v128.const i8x16 1 2 3 4 5 6 7 8 9 10 11 12 13 14 15 16 i8x16.add drop"),
    }


def texts(folder, is_small):
    """Writes the texts to the folder, unless only small ones are needed, and smaller ones to a folder in it. Returns both files of each text: a real
    text has no smaller one."""
    small = folder / "small"
    small.mkdir(parents=True, exist_ok=True)
    for place, part in ([] if is_small else [(folder, 1)]) + [(small, PART)]:
        for name, text in kinds(random.Random(7), part).items():
            (place / f"{name}.wat").write_text(text, encoding="utf-8")
    linked(folder)
    written = {text.name: text for text in [*small.glob("*.wat"), *folder.glob("*.wat")]}
    return [(text, small / name if (small / name).exists() else text) for name, text in sorted(written.items())]


def run(words, text, out=subprocess.DEVNULL):
    """Runs a process with the text as its standard input, and returns its processor time in seconds."""
    with open(text, "rb") as source:
        process = subprocess.Popen(words, stdin=source, stdout=out)
        _, status, usage = os.wait4(process.pid, 0)
    process.returncode = os.waitstatus_to_exitcode(status)
    if process.returncode != 0:
        sys.exit(f"{words}, {text}: status {process.returncode}")
    return usage.ru_utime + usage.ru_stime


def peak(words, text):
    """Returns the largest resident size of a process, in 10^6 bytes."""
    with open(text, "rb") as source:
        words = ["/usr/bin/time", "--quiet", "-f", "%M", *words]
        said = subprocess.run(words, check=True, stdin=source, stdout=subprocess.DEVNULL, stderr=subprocess.PIPE, text=True)
    return int(said.stderr) * 1024 / 1e6


def made(words, text):
    """Returns the bytes that a process writes for a text."""
    with tempfile.NamedTemporaryFile() as out:
        run([out.name if word == "/dev/null" else word for word in words], text, subprocess.DEVNULL if "/dev/null" in words else out)
        return pathlib.Path(out.name).read_bytes()


def is_same(text, jobs):
    """Returns `True` if all programs write the same module, except for a section of names."""
    ours, *others = (made(words, text) for words in jobs.values())
    return all(agreement(ours, other)[0] in ("the same bytes", "the same, spelled otherwise") for other in others)


def instructions(words, text):
    """Returns the instructions of a process, which callgrind counts."""
    with open(text, "rb") as source:
        words = ["valgrind", "--tool=callgrind", "--callgrind-out-file=/dev/null", *words]
        said = subprocess.run(words, check=True, stdin=source, stdout=subprocess.DEVNULL, stderr=subprocess.PIPE, text=True)
    return int(re.search(r"Collected : (\d+)", said.stderr)[1])


def rows_of(suite, text, numbers, digits):
    """Returns the rows of a suite: MODULE, which is the first of the programs, against each of the others."""
    (ours, number), *others = numbers.items()
    return [f"{suite}\t{text.stem}\t{ours}, {other}\t{number:.{digits}f}\t{theirs:.{digits}f}\t{theirs / number:.2f}" for other, theirs in others]


def times_of(suite, text, jobs, rounds):
    """Returns the rows of the times for a text."""
    runs = {name: [] for name in jobs}
    for number in range(rounds):
        for turn in range(len(jobs)):
            name = list(jobs)[(number + turn) % len(jobs)]
            runs[name].append(run(jobs[name], text))
    return rows_of(suite, text, {name: statistics.median(times) * 1e3 for name, times in runs.items()}, 0)


def memory_of(suite, text, jobs):
    """Returns the rows of the memory for a text."""
    return rows_of(suite, text, {name: peak(words, text) for name, words in jobs.items()}, 1)


def counts_of(text, jobs):
    """Returns the instructions of each program for a text, by its name."""
    return {name: instructions(words, text) for name, words in jobs.items()}


def instructions_of(suite, text, jobs, less):
    """Returns the rows of the instructions for a text, without those for an empty module."""
    return rows_of(suite, text, {name: (count - less[name]) / 1e6 for name, count in counts_of(text, jobs).items()}, 1)


def head(given, before):
    """Yields the lines with the date, the commit, the machine and the versions of the programs. Those of what is not measured are as in the table."""
    today, commit = datetime.date.today(), output("git", "rev-parse", "--short", "HEAD").strip()
    kept = [line for line in before if line[0] == "#" and line != COLUMNS]
    counted = [(MEASURED, given.instructions or given.times), (COUNTED, given.times)]
    if given.counts or given.instructions:
        yield from (line for line in kept if not line.startswith((MEASURED, COUNTED)))
    else:
        known = pathlib.Path("/proc/cpuinfo").read_text(encoding="utf-8").splitlines()
        model = next(line.split(": ")[1].strip() for line in known if line.startswith("model name"))
        yield f"# Times: {today}, commit {commit}, {model}, {os.cpu_count()} processors, load {os.getloadavg()[0]:.1f},"
        yield f"# wabt {output('wat2wasm', '--version').strip()}, wast 222.0.0; {given.rounds} rounds in turn; medians; milliseconds."
    for start, is_kept in counted:
        yield from [line for line in kept if line.startswith(start)] if is_kept else [f"{start} {today}, commit {commit}."]
    yield COLUMNS


def jobs_of(text, given):
    """Returns the commands of the programs for a text, by name."""
    jobs = {"module": [given.module], "wat2wasm --no-check": ["wat2wasm", "--no-check", text, "-o", "/dev/null"]}
    return {**jobs, "wast's encoder": [given.encoder, "once"]} if given.encoder else jobs


def validating_jobs_of(text, given):
    """Returns the commands of the programs that validate, for a text, by name."""
    return {"module --validate": [given.module, "--validate"], "wat2wasm": ["wat2wasm", text, "-o", "/dev/null"]}


def rows_in(suites, jobs_by, text, small, less, given):
    """Returns the rows that the options ask for, of the suites of times, memory and instructions."""
    times, memory, counts = suites
    compared = small if given.instructions else text
    jobs = jobs_by(compared, given)
    if not is_same(compared, jobs):
        sys.exit(f"{compared}: the modules differ")
    rows = [] if given.counts or given.instructions else times_of(times, text, jobs, given.rounds)
    rows += [] if given.times or given.instructions else memory_of(memory, text, jobs)
    return rows + ([] if given.times else instructions_of(counts, small, jobs_by(small, given), less))


def rows_for(text, small, less, given):
    """Returns the rows that the options ask for, of a text and of the smaller one with its name. `less` has the instructions for an empty module."""
    rows = rows_in((TIMES, MEMORY, INSTRUCTIONS), jobs_of, text, small, less, given)
    if text.stem in INVALID:
        return rows
    suites = VALIDATED_TIMES, VALIDATED_MEMORY, VALIDATED_INSTRUCTIONS
    return rows + rows_in(suites, validating_jobs_of, text, small, less, given)


def measured(given):
    """Returns the lines of the table. What is not measured is as in the table that DATA has."""
    before, rows = lines_of(DATA), []
    lines = list(head(given, before))
    files, empty = texts(given.folder, given.instructions), given.folder / "empty"
    empty.write_text("(module)\n", encoding="utf-8")
    less = {} if given.times else counts_of(empty, {**jobs_of(empty, given), **validating_jobs_of(empty, given)})
    with concurrent.futures.ThreadPoolExecutor(given.jobs if given.instructions else 1) as pool:
        for found in pool.map(lambda pair: rows_for(*pair, less, given), files):
            rows += found
            print("\n".join(found), flush=True)
    cell = {tuple(line.split("\t")[:3]): line for line in [*before, *rows] if line[0] != "#"}
    return lines + [cell[key] for key in sorted(cell, key=lambda key: key[1])]


def with_reasons(table):
    """Returns the table with the reasons in its last column, and the faults: rows without a reason, and reasons without a row."""
    lines, faults, used = [], [], set()
    for line in table:
        cells = line.split("\t")
        if line[0] != "#":
            is_low = cells[0] not in (MEMORY, VALIDATED_MEMORY) and float(cells[5]) < BOUND
            key = next((key for key in (tuple(cells[:3]), tuple(cells[:2])) if key in BELOW), None) if is_low else None
            used.add(key)
            faults += [f"{cells[0]}, {cells[1]}, {cells[2]}: no reason"] if is_low and key is None else []
            line = "\t".join([*cells[:6], BELOW.get(key, "")]).rstrip("\t")
        lines.append(line)
    return lines, faults + [f"{key}: a reason without a row" for key in BELOW if key not in used]


def lines_of(data):
    return data.read_text(encoding="utf-8").strip().split("\n")


def report(table):
    """Checks the reasons of the table, and exits with status 1 if there is a fault."""
    wanted, faults = with_reasons(table)
    faults += [f"{line}: the reason differs" for line, new in zip(table, wanted) if line != new]
    print("".join(f"{fault}\n" for fault in faults) + f"benchmark_modules.py: {sum(line[0] != '#' for line in table)} ratios, {len(faults)} faults")
    sys.exit(bool(faults))


def main():
    reads = argparse.ArgumentParser(description=__doc__, formatter_class=argparse.RawDescriptionHelpFormatter)
    reads.add_argument("module", nargs="?", type=os.path.realpath)
    reads.add_argument("folder", nargs="?", type=pathlib.Path)
    reads.add_argument("encoder", nargs="?", type=os.path.realpath)
    reads.add_argument("--rounds", type=int, default=5)
    reads.add_argument("--jobs", type=int, default=1)
    for option in ("--counts", "--instructions", "--times", "--reasons", "--check"):
        reads.add_argument(option, action="store_true")
    given = reads.parse_args()
    if not given.check:
        table = lines_of(DATA) if given.reasons else measured(given)
        DATA.write_text("\n".join(with_reasons(table)[0]) + "\n", encoding="utf-8")
    report(lines_of(DATA))


if __name__ == "__main__":
    main()
