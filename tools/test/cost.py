#!/usr/bin/env python3
"""Counts the instructions and the memory of the program's commands and of the calls of the libraries, on texts of SIZE, 2, 4 and 8 times SIZE
bytes of each kind, and compares them with tools/test/cost/bounds.tsv. No contract states time or memory, so a verified body may lex a text twice.

usage: tools/test/cost.py [--record] [--size SIZE] [KIND..]      --record writes the table; without a KIND all kinds are measured
       tools/test/cost.py --self-test                            shows that seeded faults are reported

rust/wat-tokens/tests/cost has the calls, tools/test/cost/texts.py the kinds. callgrind counts the instructions, an allocator in the test the memory.
Each run of a program has equal counts.

A row of the table is a kind and a call, with four numbers: the instructions and the bytes allocated at the peak, for each byte of the longest text,
the allocations for 1,000 of its bytes, and the growth: the instructions that the last doubling of the text adds, relative to those that the doubling
before it adds (2 if the time is linear, 4 if it is quadratic). A call fails if one of the first three is more than 1.15 times that of the table, or
its growth more than 3.
SUPERLINEAR has the known exceptions with their reasons. The growth of the table is their bound, and they must still be above 3.
"""
import argparse
import concurrent.futures
import itertools
import json
import os
import pathlib
import re
import shutil
import subprocess
import sys
import tempfile

sys.dont_write_bytecode = True
ROOT = pathlib.Path(__file__).resolve().parents[2]
sys.path.append(str(ROOT / "tools/test/cost"))

import texts

TABLE = ROOT / "tools/test/cost/bounds.tsv"
FACTORS = [1, 2, 4, 8]
# The divisors of SIZE for kinds of which a call takes long.
SHORTER = {"errors_comments": 8}
LINEAR = 3.0
# Doubling a text may add this number of instructions for each byte that it adds, however fast it grows.
QUIET = 5
# What a call may take of the bound of its row, and in addition to it.
INSTRUCTIONS, MORE_INSTRUCTIONS = 1.15, 8_000
BYTES, MORE_BYTES = 1.15, 4_096
BLOCKS, MORE_BLOCKS = 1.15, 8
GROWTH = 1.1
# The commands that are run as processes, with a file. Their memory is not measured.
COMMANDS = ["fmt --diff", "fmt --write", "fmt --check"]
FILES = ["unformatted", "functions"]
SUPERLINEAR = {
    "errors_comments": ({"wat_fill, wat_resume"}, "each unclosed comment is searched up to the end of the text"),
}
# The faults of `seeded` in rust/wat-tokens/tests/cost, with a part of the message that reports each, and the kind of the text.
SEEDS = {"twice": "instructions a byte", "quadratic": "a growth of", "kept": "a peak of"}
SEEDED = "functions"


class Row:
    """The counts of a call on the texts of a kind, by their size."""

    def __init__(self, kind, call):
        self.kind, self.call, self.sizes, self.instructions, self.peaks, self.blocks = kind, call, [], [], [], []

    def add(self, size, instructions, peak, blocks):
        self.sizes.append(size)
        self.instructions.append(instructions)
        self.peaks.append(peak)
        self.blocks.append(blocks)

    def growth(self):
        *_, first, second, third = self.instructions
        *_, before, last = self.sizes
        added, earlier = third - second, second - first
        return added / max(earlier, 1) if added > QUIET * (last - before) else 0

    def numbers(self):
        size = self.sizes[-1]
        return self.instructions[-1] / size, self.peaks[-1] / size, self.blocks[-1] * 1000 / size, self.growth()

    def exception(self):
        """Returns the reason that the call may grow faster than its text, or `None`."""
        calls, reason = SUPERLINEAR.get(self.kind, ((), None))
        return reason if self.call in calls else None

    def faults(self, bounds):
        """Yields what exceeds the bounds, which are the numbers of the table."""
        size = self.sizes[-1]
        instructions, peak, blocks, growth = self.numbers()
        most = bounds[0] * INSTRUCTIONS + MORE_INSTRUCTIONS / size
        if instructions > most:
            yield f"{instructions:.2f} instructions a byte, where {most:.2f} is the bound"
        most = bounds[1] * BYTES + MORE_BYTES / size
        if peak > most:
            yield f"a peak of {peak:.2f} bytes a byte, where {most:.2f} is the bound"
        most = bounds[2] * BLOCKS + MORE_BLOCKS * 1000 / size
        if blocks > most:
            yield f"{blocks:.2f} allocations for 1,000 bytes, where {most:.2f} is the bound"
        most = bounds[3] * GROWTH if self.exception() else LINEAR
        if growth > most:
            yield f"a growth of {growth:.2f}, where {most:.2f} is the bound"
        if self.exception() and growth <= LINEAR:
            yield f"a growth of {growth:.2f}, so that SUPERLINEAR must not list it"


def build():
    """Builds the program and the test, and returns their paths."""
    words = "cargo test --locked --quiet --release --no-run --package wat-tokens --test cost --message-format json".split()
    done = subprocess.run(words, cwd=ROOT / "rust", check=True, stdout=subprocess.PIPE, text=True)
    built = {}
    for message in map(json.loads, done.stdout.splitlines()):
        if message.get("executable"):
            built[message["target"]["name"]] = message["executable"]
    return built["wat_tokens"], built["cost"]


def write_texts(folder, kinds, size):
    """Writes the texts, and returns their paths by kind."""
    known = texts.kinds()
    paths = {}
    for kind in kinds:
        sizes = [size // SHORTER.get(kind, 1) * factor for factor in FACTORS]
        paths[kind] = [folder / f"{kind}.{length}.wat" for length in sizes]
        for path, length in zip(paths[kind], sizes):
            path.write_bytes(known[kind](length).encode())
    return paths


def callgrind(words, out, options=(), **variables):
    """Runs a process under callgrind, and returns what it reports."""
    words = ["valgrind", "--tool=callgrind", f"--callgrind-out-file={out}", *options, *words]
    done = subprocess.run(words, check=False, capture_output=True, text=True, env={**os.environ, **variables})
    if done.returncode > 1:
        sys.exit(f"cost.py: {words}: status {done.returncode}\n{done.stdout[-1000:]}{done.stderr[-3000:]}")
    return done.stderr


def total(path):
    """Returns the instructions of a call, which callgrind wrote to a file."""
    found = re.findall(rb"^totals: (\d+)", path.read_bytes(), re.MULTILINE)
    return int(found[-1])


def measure(test, folder, paths, seed=""):
    """Runs the calls on texts in one process, with a seeded fault. Yields the kind, the call, the size of the text, and the counts."""
    folder.mkdir()
    listed, memory = folder / "texts", folder / "memory"
    listed.write_text("\n".join(map(str, paths)))
    options = ["--collect-atstart=no", "--toggle-collect=cost::cost_measured", "--dump-after=cost::cost_measured"]
    words = [test, "--ignored", "--exact", "measure", "--test-threads=1"]
    callgrind(words, folder / "out", options, COST_TEXTS=str(listed), COST_MEMORY=str(memory), COST_SEED=seed)
    for number, line in enumerate(memory.read_text().splitlines(), 1):
        path, peak, blocks, call = line.split("\t")
        kind, size, _ = pathlib.Path(path).name.split(".")
        yield kind, call, int(size), total(folder / f"out.{number}"), int(peak), int(blocks)
    shutil.rmtree(folder)


def run(program, folder, command, path):
    """Runs a command on a copy of a file. Yields like `measure`, without the memory."""
    folder.mkdir()
    copy = shutil.copy(path, folder)
    reported = callgrind([program, *command.split(), copy], "/dev/null")
    kind, size, _ = path.name.split(".")
    yield kind, f"{command} FILE", int(size), int(re.search(r"Collected : (\d+)", reported)[1]), 0, 0
    shutil.rmtree(folder)


def jobs(program, test, folder, paths):
    """Returns functions that measure all calls, each in a process."""
    numbers = itertools.count()
    room = lambda: folder / f"job{next(numbers)}"
    calls = [lambda part=part, room=room(): list(measure(test, room, part)) for part in paths.values()]
    files = [(command, path) for kind in FILES for command in COMMANDS for path in paths.get(kind, [])]
    return calls + [lambda file=file, room=room(): list(run(program, room, *file)) for file in files]


def rows(program, test, folder, kinds, size):
    """Measures all calls, on two processors, and returns the rows by kind and call."""
    found = {}
    paths = write_texts(folder, kinds, size)
    with concurrent.futures.ThreadPoolExecutor(min(2, os.cpu_count())) as pool:
        for counts in pool.map(lambda job: job(), jobs(program, test, folder, paths)):
            for kind, call, *numbers in counts:
                found.setdefault((kind, call), Row(kind, call)).add(*numbers)
    return found


def read_table():
    """Returns the cells of the table, except the first two, by kind and call."""
    rows_of = (line.split("\t") for line in TABLE.read_text().splitlines() if not line.startswith("#"))
    return {(kind, call): cells for kind, call, *cells in rows_of}


def head(size):
    rustc = subprocess.run(["rustc", "--version"], check=True, capture_output=True, text=True).stdout.strip()
    written = f"# Written by tools/test/cost.py --record; {rustc}; texts of {size} to {8 * size} bytes, but for SHORTER\n"
    return written + "# kind\tcall\tinstructions\tbytes\tallocations\tgrowth\treason\n"


def write_table(found, size):
    """Writes the measured rows to the table, and keeps those of other kinds. Returns the rows that grow faster than their text without a reason."""
    cells = read_table() if TABLE.exists() else {}
    measured = {kind for kind, _ in found}
    cells = {name: row for name, row in cells.items() if name[0] not in measured}
    for name, row in found.items():
        cells[name] = [*(f"{number:.2f}" for number in row.numbers()), row.exception() or "-"]
    order = list(texts.kinds())
    names = sorted(cells, key=lambda name: order.index(name[0]))
    TABLE.write_text(head(size) + "".join("\t".join([*name, *cells[name]]) + "\n" for name in names))
    fast = [row for row in found.values() if row.growth() > LINEAR and not row.exception()]
    return [f"{row.kind}: {row.call}: a growth of {row.growth():.2f}" for row in fast]


def compare(found, is_whole):
    """Returns the calls that exceed their bounds, and the rows that only the table or only the run has."""
    table = read_table()
    both = [(row, [float(cell) for cell in table[name][:4]]) for name, row in found.items() if name in table]
    faults = [f"{row.kind}: {row.call}: {fault}" for row, bounds in both for fault in row.faults(bounds)]
    faults += [f"{kind}: {call}: not in the table" for kind, call in found.keys() - table.keys()]
    if is_whole:
        faults += [f"{kind}: {call}: only in the table" for kind, call in table.keys() - found.keys()]
    return faults


def unreported(test, folder, seed, paths):
    """Returns the calls whose seeded fault is not reported, or those with a fault if none is seeded, and the number of calls."""
    table, found = read_table(), {}
    for kind, call, *numbers in measure(test, folder / f"seed-{seed}", paths, seed):
        found.setdefault(call, Row(kind, call)).add(*numbers)
    bounds = lambda row: [float(cell) for cell in table[row.kind, row.call][:4]]
    reports = {call: " ".join(row.faults(bounds(row))) for call, row in found.items()}
    return [call for call, report in reports.items() if (SEEDS[seed] not in report if seed else report)], len(reports)


def self_test(test, size):
    """Seeds faults into all calls, and checks that each is reported, and nothing without them."""
    bad = 0
    with tempfile.TemporaryDirectory() as name:
        folder = pathlib.Path(name)
        paths = write_texts(folder, [SEEDED], size)[SEEDED]
        for seed in ["", *SEEDS]:
            wrong, count = unreported(test, folder, seed, paths)
            bad += len(wrong) + (count == 0)
            print(f"cost.py: self-test: {seed or 'no fault'}: {count} calls, {len(wrong)} wrong{': ' * bool(wrong)}{', '.join(wrong)}")
    return 1 if bad else 0


def main():
    reads = argparse.ArgumentParser(description=__doc__, formatter_class=argparse.RawDescriptionHelpFormatter)
    reads.add_argument("--record", action="store_true")
    reads.add_argument("--self-test", action="store_true")
    reads.add_argument("--size", type=int, default=8192)
    reads.add_argument("kinds", nargs="*", metavar="KIND")
    given = reads.parse_args()
    program, test = build()
    if given.self_test:
        return self_test(test, given.size)
    with tempfile.TemporaryDirectory() as folder:
        found = rows(program, test, pathlib.Path(folder), given.kinds or texts.kinds(), given.size)
    faults = write_table(found, given.size) if given.record else compare(found, not given.kinds)
    for fault in faults:
        print(f"cost.py: {fault}")
    print(f"cost.py: {len(found)} rows of {len({kind for kind, _ in found})} kinds of text, {len(faults)} faults")
    return 1 if faults else 0


if __name__ == "__main__":
    sys.exit(main())
