#!/usr/bin/env python3
"""Benchmarks how the time and memory of `wat_tokens` commands grow with their input. A text is repeated up to 10 MB, 100 MB and 1 GB. Each command
reads it as standard input, and its output goes to /dev/null. A time is the user and system time of a process, the least of ROUNDS; a memory is the
largest resident size. Prints rows for docs/speed/programs.tsv: milliseconds and nanoseconds per byte, or bytes per byte.

usage: benchmark_growth.py WAT_TOKENS FOLDER TEXT [ROUNDS]     FOLDER gets the texts, one after the other; TEXT ends with a line feed
"""
import datetime
import os
import pathlib
import subprocess
import sys

SIZES = {"10 MB": 10**7, "100 MB": 10**8, "1 GB": 10**9}
COMMANDS = ["list", "sig", "blank", "fmt"]


def run(program, command, path):
    """Returns the processor time of a process in seconds, and its largest resident size in bytes."""
    with path.open("rb") as text:
        process = subprocess.Popen([program, command], stdin=text, stdout=subprocess.DEVNULL)
        _, status, usage = os.wait4(process.pid, 0)
    process.returncode = os.waitstatus_to_exitcode(status)
    if process.returncode != 0:
        sys.exit(f"benchmark_growth.py: {command}: status {process.returncode}")
    return usage.ru_utime + usage.ru_stime, usage.ru_maxrss * 1024


def write(path, part, size):
    """Writes copies of a text to a file until it has at least `size` bytes, and returns the size of the file."""
    with path.open("wb") as out:
        for _ in range(-(-size // len(part))):
            out.write(part)
    return path.stat().st_size


def main():
    program, folder, text = sys.argv[1], pathlib.Path(sys.argv[2]), pathlib.Path(sys.argv[3])
    rounds = int(sys.argv[4]) if len(sys.argv) > 4 else 3
    part = text.read_bytes()
    commit = subprocess.run(["git", "rev-parse", "--short", "HEAD"], check=True, capture_output=True, text=True).stdout.strip()
    print(f"# {datetime.date.today()}, commit {commit}, {os.cpu_count()} processors, load {os.getloadavg()[0]:.1f}; {text.name} repeated; least of {rounds}")
    print("# suite\ttext\tcall\tours\tother\tratio: milliseconds, and nanoseconds a byte; or bytes a byte")
    for name, size in SIZES.items():
        path = folder / "growth.wat"
        length = write(path, part, size)
        for command in COMMANDS:
            measured = [run(program, command, path) for _ in range(rounds)]
            seconds, resident = min(one[0] for one in measured), max(one[1] for one in measured)
            print(f"growth\t{name}\twat_tokens {command}\t{seconds * 1e3:.0f}\t{seconds * 1e9 / length:.2f}\t-", flush=True)
            print(f"memory, growth\t{name}\twat_tokens {command}\t{resident / length:.2f}\t-\t-", flush=True)
        path.unlink()


main()
