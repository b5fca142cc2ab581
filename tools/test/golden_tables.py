#!/usr/bin/env python3
"""Runs the test cases of `tests/answers.txt`, `tests/modules.txt` and `tests/requests.txt` with the Rattle toolchain alone, unproved: `rt try` compiles
the program in tests/by_rattle, in a temporary repository, and runs it.

Calls of a parser run over both kinds of its buffer. Of each kind of call in `requests.txt`, the test case with the most allocations, or each with
--every, has more runs. One counts its allocations. In one for each of them this allocation fails: the call must return the result of the table or the
allocation failure. In the last the allocation before them fails: that must be one of the preparation, not of the call. A test case that cannot run here
is reported as a failure. A run with a failed allocation takes 0.6 seconds, so the default is a sample.

Not checked, unlike with cargo: the bytes of `requests.txt`, the bytes that are held after a call, and the failure of all allocations from one on.

usage: tools/test/golden_tables.py [--every] [--rows PATTERN]    only the test cases whose line has this regular expression
       tools/test/golden_tables.py --self-test                   a few test cases, with seeded faults that must be reported
"""

import argparse
import concurrent.futures
import dataclasses
import itertools
import pathlib
import re
import shutil
import subprocess
import sys
import tempfile
import time

ROOT = pathlib.Path(__file__).resolve().parents[2]
PROGRAM = ROOT / "tests/by_rattle"
SOURCES = ("table", "text")
DEPENDENCIES = "wat_modules wat_types example_imports wat_lexer_parser wat_lex wat_words"
# The allocation that fails in each run, counted from 1: above those of each test case.
FAILED = 500
# The number of files that the test cases of `answers.txt` are split into, and the seconds that each may take.
PARTS, SECONDS = 24, 600
# The numbers of allocations of calls whose number in Rattle differs from that of the generated Rust, which the table has. The call keeps names in a
# B-tree of std.
OTHER_COUNTS = {"with-standard-annotations": 6}
# A call that does not allocate, for the number of allocations before a call and its preparation.
NOTHING = "none|0|0|none|||||"
# A placeholder for a call, and the word that the program prints for it.
LATER, LATE = "later|0|0|later|||||", "unknown"


@dataclasses.dataclass(frozen=True)
class Answer:
    """A test case of `answers.txt`, the call with its text, or of `modules.txt`, a text; and the result."""

    line: str
    wanted: str
    table: str = "answers"


@dataclasses.dataclass(frozen=True)
class Request:
    """A test case of `requests.txt`."""

    line: str

    @property
    def name(self):
        """Returns the name of the test case."""
        return self.line.split("|")[0]

    @property
    def kind(self):
        """Returns the kind of the call."""
        return self.line.split("|")[3].partition("@")[0]

    @property
    def requests(self):
        """Returns the number of allocations of the call."""
        return OTHER_COUNTS.get(self.name, int(self.line.split("|")[1]))


def read_answers():
    """Returns the test cases of `answers.txt`."""
    lines = (ROOT / "tests/answers.txt").read_text(encoding="utf-8").split("\n")[:-1]
    return [Answer(line, answer.removeprefix("    ")) for line, answer in zip(lines[::2], lines[1::2], strict=True)]


def read_modules():
    """Returns the test cases of `modules.txt`."""
    lines = [line for line in (ROOT / "tests/modules.txt").read_text(encoding="utf-8").split("\n")[:-1] if not line.startswith("#")]
    return [Answer(line, answer.removeprefix("    "), "modules") for line, answer in zip(lines[::2], lines[1::2], strict=True)]


def read_requests():
    """Returns the test cases of `requests.txt`."""
    lines = (ROOT / "tests/requests.txt").read_text(encoding="utf-8").split("\n")[1:-1]
    return [Request(line) for line in lines]


def make_repository(folder):
    """Creates a repository of links to the crates, and of the program, and returns the folder of the program's crate."""
    for crate in (ROOT / "crates").iterdir():
        for part in ("src", "specs", "proofs"):
            if (crate / part).is_dir():
                (folder / "crates" / crate.name).mkdir(parents=True, exist_ok=True)
                (folder / "crates" / crate.name / part).symlink_to(crate / part)
    listed = (ROOT / "crates.txt").read_text(encoding="utf-8")
    (folder / "crates.txt").write_text(f"{listed}wat_tables: {DEPENDENCIES}\n", encoding="utf-8")
    shutil.copy(ROOT / "HANDLES", folder)
    for file in PROGRAM.rglob("*.rattle"):
        copy = folder / "crates/wat_tables/src" / file.relative_to(PROGRAM).with_suffix(".rt")
        copy.parent.mkdir(parents=True, exist_ok=True)
        shutil.copy(file, copy)
    return folder / "crates/wat_tables"


def write_cases(folder, cases):
    """Writes the standard input of each case to a file with its name, at once."""
    for name, text in cases.items():
        with tempfile.NamedTemporaryFile("w", encoding="utf-8", delete=False, prefix="try-tables-") as file:
            file.write(text)
        shutil.move(file.name, folder / name)


def run_cases(crate, cases, found=lambda name, line: {}):
    """Runs the program on each standard input, in the order of their names, and returns the lines that it prints, by name.

    Each line is passed to `found` with its name as soon as it is printed. It returns new standard inputs of later cases."""
    printed, name = {}, None
    with tempfile.TemporaryDirectory(prefix="try-tables-") as folder, tempfile.TemporaryFile("w+") as errors:
        write_cases(pathlib.Path(folder), cases)
        words = ["rt", "try", "--seconds", str(SECONDS), "--fail-alloc", str(FAILED), "--cases", folder]
        with subprocess.Popen(words, cwd=crate, stdout=subprocess.PIPE, stderr=errors, text=True) as running:
            for line in running.stdout:
                if line.startswith("== "):
                    name = line[3:-1]
                    printed[name] = []
                elif name:
                    printed[name].append(line.rstrip("\n"))
                    write_cases(pathlib.Path(folder), found(name, line.rstrip("\n")))
        errors.seek(0)
        said = errors.read()
    ended = set(re.findall(r"^case=(\S+) run=ended status=0 ", said, re.M))
    if ended < set(cases):
        print(*[line for line in said.splitlines() if not re.match(r"case=\S+ run=ended status=0 |allocations: ", line)][-20:], sep="\n")
    return {name: lines for name, lines in printed.items() if name in ended}


def check_answers(crate, rows):
    """Returns the faults of the test cases of `answers.txt` and `modules.txt` that fail, by test case."""
    answers, modules = ([row for row in rows if row.table == table] for table in ("answers", "modules"))
    parts = {f"answers-{number:02}": answers[number::PARTS] for number in range(min(PARTS, len(answers)))} | ({"modules": modules} if modules else {})
    printed = run_cases(crate, {name: "\n".join([part[0].table, *(row.line for row in part), ""]) for name, part in parts.items()})
    faults = {}
    for name, part in parts.items():
        lines = printed.get(name, [])
        for row, found in itertools.zip_longest(part, lines[: len(part)], fillvalue="no result"):
            if found not in (f"once {row.wanted}", f"twice {row.wanted}"):
                faults[row] = f"{row.table}.txt: {row.line}\n    wanted {row.wanted}\n    found  {found}"
    return faults


def case_of(source, skipped, line):
    """Returns the standard input for a test case of `requests.txt`, before which `skipped` allocations are made."""
    return f"requests {source} {skipped}\n{line}\n"


class Runs:
    """The runs of test cases of requests.txt, by the names of their cases: one without a failure first, and later those with one, whose standard
    input depends on its count of allocations."""

    def __init__(self, rows):
        """Creates the runs of these test cases over both buffers."""
        self.calls = {f"{number:04}-{source}": (row, source) for number, row in enumerate(rows) for source in SOURCES}
        self.most, self.before, self.failing, self.faults = 0, {}, {}, {}

    def first_cases(self):
        """Returns the cases without a failure, and a placeholder for each of the others."""
        cases = {"0-none": case_of("text", 0, NOTHING)}
        for name, (row, source) in self.calls.items():
            cases[f"1-{name}"] = case_of(source, 0, row.line)
            cases |= {f"2-{name}-{number:02}": case_of("text", 0, LATER) for number in range(row.requests + 1)}
        return cases

    def found(self, case, line):
        """Records the end of a run without a failure, and returns the cases in which the last allocation before the call fails, and each of it."""
        stage, _, name = case.partition("-")
        word, _, left = line.partition(" ")
        if name == "none" and left.isdigit():
            self.most = int(left)
        if stage != "1":
            return {}
        row, source = self.calls[name]
        count = self.most - int(left) if left.isdigit() else 0
        if word != "answer" or count < row.requests:
            self.faults[row] = f"requests.txt: {row.name}, {source}: {line} without a failure, after {count} allocations"
            return {}
        self.before[name] = before = count - row.requests
        failed = {number: before + number for number in range(row.requests + 1) if before + number}
        cases = {f"2-{name}-{number:02}": case_of(source, self.most + 1 - it, row.line) for number, it in failed.items()}
        self.failing |= cases
        return cases

    def fault_of(self, name, printed):
        """Returns the fault of a call's runs with a failure, or `None`."""
        row, _ = self.calls[name]
        if name not in self.before:
            return "no result"
        ends = {number: " ".join(printed.get(f"2-{name}-{number:02}", ["no result"])) for number in range(row.requests + 1)}
        if self.before[name] and ends[0] != "preparation -":
            return f"{ends[0]} if the last allocation before the call fails"
        for number in range(1, row.requests + 1):
            if ends[number] not in ("memory -", "answer -"):
                return f"{ends[number]} if allocation {number} of {row.requests} fails"
        is_free = row.name.startswith("free-")
        if is_free != (row.requests == 0) or is_free == ("memory -" in ends.values()):
            return "the name or a returned allocation failure does not fit the number of allocations"
        return None


def check_requests(crate, rows, chosen):
    """Returns the faults of the test cases of `requests.txt` that fail, by test case. The allocations of the chosen ones fail in turn."""
    runs = Runs(chosen)
    together = {"0-all": "\n".join(["requests all", *(row.line for row in rows), ""])}
    printed = run_cases(crate, runs.first_cases() | together, runs.found)
    # Cases that `rt try` had read before their standard input was known.
    late = {name: text for name, text in runs.failing.items() if printed.get(name, [LATE])[0].startswith(LATE)}
    if late:
        printed |= run_cases(crate, late)
    ends = printed.get("0-all", [])
    for number, row in enumerate(rows):
        if ends[2 * number : 2 * number + 2] != ["answer", "answer"]:
            runs.faults[row] = f"requests.txt: {row.name}: {', '.join(ends[2 * number : 2 * number + 2]) or 'no result'} without a failure"
    for name, (row, source) in runs.calls.items():
        fault = runs.fault_of(name, printed)
        if fault:
            runs.faults.setdefault(row, f"requests.txt: {row.name}, {source}: {fault}")
    return runs.faults


def sample(rows):
    """Returns the test case of each kind of call that has the most allocations."""
    return list({row.kind: row for row in sorted(rows, key=lambda row: row.requests)}.values())


def check(answers, requests, chosen):
    """Runs test cases of the tables in parallel, and returns the faults of those that fail, by test case."""
    with tempfile.TemporaryDirectory(prefix="try-tables-") as folder:
        crate = make_repository(pathlib.Path(folder))
        with concurrent.futures.ThreadPoolExecutor() as pool:
            tables = [pool.submit(check_answers, crate, answers), pool.submit(check_requests, crate, requests, chosen)]
            return tables[0].result() | tables[1].result()


def report(answers, requests, chosen):
    """Runs test cases, reports those that fail, and returns the exit status."""
    began = time.monotonic()
    faults = check(answers, requests, chosen)
    print(*faults.values(), sep="\n", end="\n" if faults else "")
    tables = {name: [row for row in answers if row.table == name] for name in ("answers", "modules")} | {"requests": requests}
    failures = sum(row.requests for row in chosen) * len(SOURCES)
    print(f"{time.monotonic() - began:.0f} seconds; {failures} allocations failed in turn, of {len(chosen)} rows of requests.txt")
    print(*(f"{name}: {sum(row not in faults for row in rows)} of {len(rows)} rows" for name, rows in tables.items()), sep=", ")
    return 1 if faults or not answers + requests else 0


def seeded(row, old, new):
    """Returns a test case with a text replaced that occurs in it once."""
    changed = {name: text.replace(old, new) for name, text in dataclasses.asdict(row).items()}
    assert sum(text != changed[name] for name, text in dataclasses.asdict(row).items()) == 1, row
    return dataclasses.replace(row, **changed)


def self_test():
    """Runs a few test cases, some with a seeded fault, and returns 0 if exactly these are reported."""
    answers = read_answers()[:8]
    modules = {row.line: row for row in read_modules()}
    requests = {row.name: row for row in read_requests()}
    good = [requests[name] for name in ("read-float", "look-id", "free-look-any", "encode-triple")]
    bad = [
        Answer("tokens x", "Keyword 0..2"),
        Answer("unheard-of x", "nothing"),
        seeded(modules["(module (memory 1))"], "05030100", "05030101"),
        seeded(modules["(module (func nop)"], " at 18", " at 17"),
        seeded(modules["(modul)"], "unknown module field", "unknown instruction"),
        seeded(requests["read-string"], "[195, 179]", "[195, 178]"),
        seeded(requests["register"], "register|2|", "register|3|"),
        seeded(requests["parse-end"], "parse-end|2|", "parse-end|1|"),
        seeded(requests["free-look-rparen"], "|look|rparen|", "|unheard|rparen|"),
    ]
    planted = [row for row in bad if isinstance(row, Request)]
    found = check(answers + [*modules.values()][:8] + bad[: -len(planted)], good + planted, good + planted)
    print(*found.values(), sep="\n")
    if set(found) != set(bad):
        print(f"self-test: {len(set(bad) - set(found))} seeded faults not reported, {len(set(found) - set(bad))} others reported")
        return 1
    print(f"self-test: {len(bad)} seeded faults reported")
    return 0


def main():
    """Runs the command line, and returns the exit status."""
    parser = argparse.ArgumentParser(description="Runs tests/answers.txt, modules.txt and requests.txt by `rt try`.")
    parser.add_argument("--rows", default="", help="a regular expression that the lines of the test cases have")
    parser.add_argument("--every", action="store_true", help="let the allocations of each test case fail, and not those of a sample")
    parser.add_argument("--self-test", action="store_true", help="report seeded faults")
    options = parser.parse_args()
    if options.self_test:
        return self_test()
    answers, requests = ([row for row in rows if re.search(options.rows, row.line)] for rows in (read_answers() + read_modules(), read_requests()))
    return report(answers, requests, requests if options.every else sample(requests))


if __name__ == "__main__":
    sys.exit(main())
