#!/usr/bin/env python3
"""Benchmarks whole programs: `wat_tokens` against the programs of Debian's wabt that do the most similar work. Processes run in turn, with output to
/dev/null. A time is the median of the user and system times; a memory is the largest resident size, in bytes per byte of text. Prints rows for
docs/speed/programs.tsv.

`wat-desugar` reads a text into trees and prints them, whereas `fmt` formats tokens, `list` names them, `sig` skips trivia and `blank` replaces
comments with blanks. `wat2wasm` must write the same bytes as `types`, which is checked.

usage: benchmark_programs.py WAT_TOKENS FOLDER [ROUNDS]     FOLDER gets the texts: the C library of WASI, linked whole by `wasm-ld` and printed by
                                                         `wasm2wat`, and types of functions
"""
import datetime
import os
import pathlib
import random
import statistics
import subprocess
import sys

LIBRARY = "/usr/lib/wasm32-wasi/libc.a"
VALUES = ["i32", "i64", "f32", "f64"]


def output(*words):
    return subprocess.run(words, check=True, capture_output=True, text=True).stdout


def found(name):
    """Returns the path of a program, whose name may be followed by a version number."""
    return next(path for folder in os.environ["PATH"].split(":") for path in sorted(pathlib.Path(folder).glob(f"{name}*")))


def linked(folder):
    """Writes the texts of the linked C library: flat and folded."""
    wasm = folder / "libc.wasm"
    subprocess.run([found("wasm-ld"), "--no-entry", "--whole-archive", "--export-all", "--allow-undefined", "-o", wasm, LIBRARY], check=True)
    for name, words in (("libc_flat", []), ("libc_folded", ["--fold-exprs"])):
        subprocess.run(["wasm2wat", "--enable-all", *words, wasm, "-o", folder / f"{name}.wat"], check=True)


def types(count, distinct):
    """Returns a module of function types that are all distinct or all equal."""
    rng = random.Random(5)
    seen, lines = set(), []
    while len(lines) < count:
        line = f"  (type (func (param {' '.join(rng.choices(VALUES, k=rng.randrange(1, 12)))}) (result i32)))\n" if distinct else "  (type (func (param i32)))\n"
        if not distinct or line not in seen:
            seen.add(line)
            lines.append(line)
    return f"(module\n{''.join(lines)})\n"


def run(words):
    """Runs a process and returns its processor time in seconds."""
    null = subprocess.DEVNULL
    process = subprocess.Popen(words, stdin=null, stdout=null, stderr=null)
    _, status, usage = os.wait4(process.pid, 0)
    process.returncode = os.waitstatus_to_exitcode(status)
    if process.returncode != 0:
        sys.exit(f"{words}: status {process.returncode}")
    return usage.ru_utime + usage.ru_stime


def peak(words):
    """Returns the largest resident size of a process in bytes. `/usr/bin/time` starts it, as a fork of this process would count its own memory."""
    said = subprocess.run(["/usr/bin/time", "--quiet", "-f", "%M", *words], check=True, stdout=subprocess.DEVNULL, stderr=subprocess.PIPE, text=True)
    return int(said.stderr) * 1024


def rows(text, jobs, rounds):
    """Prints the rows of a text: each command of `wat_tokens` against the other program."""
    runs = {name: [] for name in jobs}
    for number in range(rounds):
        for turn in range(len(jobs)):
            name = list(jobs)[(number + turn) % len(jobs)]
            runs[name].append(run(jobs[name]))
    time = {name: statistics.median(times) * 1e3 for name, times in runs.items()}
    most = {name: peak(jobs[name]) / text.stat().st_size for name in jobs}
    other = next(name for name in jobs if not name.startswith("wat_tokens"))
    for name in jobs:
        if name != other:
            print(f"programs\t{text.stem}\t{name}, {other}\t{time[name]:.1f}\t{time[other]:.1f}\t{time[other] / time[name]:.2f}")
            print(f"memory, programs\t{text.stem}\t{name}, {other}\t{most[name]:.2f}\t{most[other]:.2f}\t-", flush=True)


def main():
    program, folder = os.path.realpath(sys.argv[1]), pathlib.Path(sys.argv[2])
    rounds = int(sys.argv[3]) if len(sys.argv) > 3 else 9
    folder.mkdir(parents=True, exist_ok=True)
    linked(folder)
    model = next(line.split(": ")[1].strip() for line in open("/proc/cpuinfo", encoding="utf-8") if line.startswith("model name"))
    commit = output("git", "rev-parse", "--short", "HEAD").strip()
    print(f"# {datetime.date.today()}, commit {commit}, {model}, {os.cpu_count()} processors, load {os.getloadavg()[0]:.1f},")
    print(f"# wabt {output('wat2wasm', '--version').strip()}; {rounds} rounds in turn; medians\n# suite\ttext\tcall\tours\tother\tratio")
    for name, folded in (("libc_flat", []), ("libc_folded", ["--fold-exprs"])):
        text = folder / f"{name}.wat"
        jobs = {f"wat_tokens {word}": [program, "--file", text, word] for word in ("fmt", "list", "sig", "blank")}
        jobs |= {f"wat_tokens --json {word}": [program, "--json", "--file", text, word] for word in ("list", "sig")}
        rows(text, jobs | {"wat-desugar": ["wat-desugar", *folded, text]}, rounds)
    for name, count, distinct in (("types_10000", 10_000, True), ("types_equal", 100_000, False)):
        text, bytes_ = folder / f"{name}.wat", folder / f"{name}.wasm"
        text.write_text(types(count, distinct), encoding="utf-8")
        subprocess.run(["wat2wasm", "--no-check", text, "-o", bytes_], check=True)
        if subprocess.run([program, "types", text], check=True, capture_output=True).stdout != bytes_.read_bytes():
            sys.exit(f"{text}: the bytes differ")
        rows(text, {"wat_tokens types": [program, "types", text], "wat2wasm --no-check": ["wat2wasm", "--no-check", text, "-o", "/dev/null"]}, rounds)


if __name__ == "__main__":
    main()
