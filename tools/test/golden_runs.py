#!/usr/bin/env python3
"""Runs the golden tests of tests/runs.txt on a program: the exit status, standard output and standard error must be as recorded, and the input files
must not change. Then runs with seeded faults must be reported.

usage: tools/test/golden_runs.py PROGRAM
       tools/test/golden_runs.py --try     by `rt try --cases`, unproved, over crates/wat_tokens: standard output alone, and no argument with a line end
"""
import copy
import os
import pathlib
import re
import subprocess
import sys
import tempfile

ROOT = pathlib.Path(__file__).resolve().parents[2]
ESCAPE = re.compile(rb"\\(?:x(..)|u\{([^}]*)\}|(.))")
PLAIN = {b"n": b"\n", b"r": b"\r", b"t": b"\t", b"0": b"\0", b"\\": b"\\"}


def bytes_of(text):
    """Decodes the escapes of a text."""

    def stands_for(escape):
        byte, char, plain = escape.groups()
        if byte:
            return bytes([int(byte, 16)])
        return chr(int(char, 16)).encode() if char else PLAIN[plain]

    return ESCAPE.sub(stands_for, text.encode())


class Record:
    """Runs with the same result: their arguments, their standard input, and the result."""

    def __init__(self, paragraph):
        lines = [line.partition(" ")[::2] for line in paragraph.split("\n")]
        texts = lambda kind: [text for it, text in lines if it == kind]
        self.files = {bytes_of(name): bytes_of(text) for name, _, text in (it.partition(" ") for it in texts("@"))}
        self.runs = [[b"" if word == '""' else bytes_of(word) for word in text.split()] for text in texts("$")]
        self.input, self.output, self.report = (b"".join(map(bytes_of, texts(kind))) for kind in "<>!")
        self.status = int("".join(texts("=")) or 0)


def table():
    """Returns the input files of the runs, and the records."""
    text = (ROOT / "tests/runs.txt").read_text(encoding="utf-8")
    records = [Record(it) for it in text.split("\n\n")]
    files = {name: data for it in records for name, data in it.files.items()}
    return files, [it for it in records if it.runs]


def path_of(folder, name):
    return pathlib.Path(folder, os.fsdecode(name))


def write(folder, files):
    """Writes the files, and creates a folder for a name that ends in `/`."""
    for name, data in files.items():
        if name.endswith(b"/"):
            path_of(folder, name).mkdir()
        else:
            path_of(folder, name).write_bytes(data)


def fault(program, folder, record, words):
    """Runs a program, and returns the fault of its result or `None`."""
    done = subprocess.run([program, *words], input=record.input, capture_output=True, cwd=folder, check=False)
    got, wanted = (done.returncode, done.stdout, done.stderr), (record.status, record.output, record.report)
    return f"{words}: {got} in place of {wanted}" if got != wanted else None


def faults(program, folder):
    """Returns the number of runs, and the faults, one of them that of changed files."""
    files, records = table()
    write(folder, files)
    found = [fault(program, folder, record, words) for record in records for words in record.runs]
    stay = all(path_of(folder, name).read_bytes() == data for name, data in files.items() if not name.endswith(b"/"))
    return len(found), [it for it in found + [None if stay else "a file is other than it was"] if it]


def unreported(program, folder):
    """Returns the seeded faults that are not reported: another byte of the output or of the report, and another status, of a run that has both."""
    record = [it for it in table()[1] if it.output and it.report][-1]
    seeds = {"output": record.output[:-2] + b"?\n", "report": b"?" + record.report[1:], "status": record.status + 1}
    silent = []
    for name, value in seeds.items():
        seeded = copy.copy(record)
        setattr(seeded, name, value)
        silent += [] if fault(program, folder, seeded, record.runs[0]) else [f"a seeded fault is not reported: {name} of {record.runs[0]}"]
    return silent


def run(program):
    with tempfile.TemporaryDirectory() as name:
        program, folder = pathlib.Path(program).resolve(), pathlib.Path(name)
        count, bad = faults(program, folder)
        bad += unreported(program, folder)
    print(*bad, f"golden_runs.py: {count} runs, {len(bad)} faults", sep="\n")
    return 1 if bad else 0


def try_unproved():
    with tempfile.TemporaryDirectory() as folder:
        cases, data = pathlib.Path(folder, "cases"), pathlib.Path(folder, "data")
        cases.mkdir()
        data.mkdir()
        files, records = table()
        write(data, files)
        for i, record in enumerate(records):
            for j, words in enumerate(record.runs):
                name = b"%03d-%02d" % (i, j)
                if not any(b"\n" in it for it in words):
                    arguments = b"".join(it + b"\n" for it in words)
                    write(cases, {name: record.input, name + b".stdout": record.output, name + b".args": arguments})
        flags = [it for name in files if not name.endswith(b"/") for it in ("--data", name + b"=" + bytes(path_of(data, name)))]
        return subprocess.run(["rt", "try", "--cases", cases, *flags], cwd=ROOT / "crates/wat_tokens", check=False).returncode


def main():
    if len(sys.argv) != 2:
        print(__doc__.split("\n\n")[1], file=sys.stderr)
        return 2
    return try_unproved() if sys.argv[1] == "--try" else run(sys.argv[1])


if __name__ == "__main__":
    sys.exit(main())
