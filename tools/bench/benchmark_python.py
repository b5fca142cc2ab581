#!/usr/bin/env python3
"""Benchmarks `tokens` and `significant` of the Python package wat_lex against `wat_fill` and `wat_rows`, called in C, with the same shared library in
one process. The calls take turns, in processor time, each with its least time of ROUNDS. C fills an array for the whole text, which it allocates as
zeros and frees, like the package; and, for comparison, a buffer of 1,024 tokens that each call reuses. With --check the status is 1 if `tokens` has
less than 0.8 of the speed of `wat_fill` with such an array, in each of ten runs, as other processes can disturb a run.

usage: benchmark_python.py [--check] [--rounds N] [FILE..]     default: 15 rounds; 10 MB of tools/lib/generate_text.py

PYTHONPATH has the package, as `make wheel` builds it. A C compiler `cc` is required.
"""
import argparse
import pathlib
import subprocess
import sys
import tempfile
import time

import cffi
import wat_lex

ROOT = pathlib.Path(__file__).resolve().parents[2]
SOURCE = """
#include "wat.h"
#include <stdlib.h>

size_t whole(const uint8_t *text, size_t len) {
    struct wat_token *tokens = calloc(len + 1, sizeof *tokens);
    const size_t count = wat_fill(text, len, 0, false, false, tokens, len + 1).count;
    free(tokens);
    return count;
}

size_t rows(const uint8_t *text, size_t len) {
    struct wat_row *tokens = calloc(len + 1, sizeof *tokens);
    const size_t count = wat_rows(text, len, 0, false, false, tokens, len + 1).count;
    wat_links(tokens, count);
    free(tokens);
    return count;
}

size_t parts(const uint8_t *text, size_t len) {
    static struct wat_token tokens[1024];
    struct wat_filled filled = {0, 0, WAT_FULL};
    size_t count = 0;
    while (filled.why == WAT_FULL) {
        filled = wat_fill(text, len, filled.at, false, false, tokens, 1024);
        count += filled.count;
    }
    return count;
}
"""


def in_c(folder):
    """Compiles the loops in C, and returns the functions."""
    package = pathlib.Path(wat_lex.__file__).parent
    (folder / "loops.c").write_text(SOURCE, encoding="utf-8")
    library = [f"-L{package}", f"-Wl,-rpath,{package}", "-l:libwat.so"]
    words = ["cc", "-O2", "-shared", "-fPIC", f"-I{ROOT}/include", "-o", "loops.so", "loops.c", *library]
    subprocess.run(words, check=True, cwd=folder)
    ffi = cffi.FFI()
    ffi.cdef("".join(f"size_t {name}(const char *text, size_t len);" for name in ("whole", "rows", "parts")))
    return ffi.dlopen(str(folder / "loops.so"))


def calls(loops, text):
    """Returns the calls to benchmark, each of which returns the number of tokens."""
    decoded = text.decode("utf-8")
    return {
        "wat_fill, an array": lambda: loops.whole(text, len(text)),
        "wat_fill, 1,024 tokens": lambda: loops.parts(text, len(text)),
        "tokens, bytes": lambda: len(wat_lex.tokens(text)),
        "tokens, str": lambda: len(wat_lex.tokens(decoded)),
        "wat_rows, an array": lambda: loops.rows(text, len(text)),
        "significant, bytes": lambda: len(wat_lex.significant(text)),
    }


def least(functions, rounds):
    """Returns the least time of each call in milliseconds, and the number of tokens that it returned."""
    times, counts = dict.fromkeys(functions, float("inf")), {}
    for _ in range(rounds):
        for name, function in functions.items():
            begun = time.process_time_ns()
            counts[name] = function()
            times[name] = min(times[name], (time.process_time_ns() - begun) / 1e6)
    return times, counts


def report(name, text, times, counts):
    """Prints the times of a text, and returns the speed of `tokens` as a fraction of that of `wat_fill`."""
    print(f"{name}: {len(text):,} bytes, {counts['tokens, bytes']:,} tokens")
    for call, milliseconds in times.items():
        print(f"  {milliseconds:8.2f} ms  {len(text) / milliseconds / 1e3:6.0f} MB/s  {call}")
    assert len({count for call, count in counts.items() if "fill" in call or "tokens" in call}) == 1, counts
    assert counts["wat_rows, an array"] == counts["significant, bytes"], counts
    array, buffer = (times[call] / times["tokens, bytes"] for call in ("wat_fill, an array", "wat_fill, 1,024 tokens"))
    print(f"  tokens has {array:.2f} of the speed of wat_fill with an array, {buffer:.2f} of that with a buffer")
    return array


def main():
    arguments = argparse.ArgumentParser()
    arguments.add_argument("--check", action="store_true")
    arguments.add_argument("--rounds", type=int, default=15)
    arguments.add_argument("files", type=pathlib.Path, nargs="*")
    given = arguments.parse_args()
    texts = {path.name: path.read_bytes() for path in given.files}
    if not texts:
        texts["generated text"] = subprocess.run([ROOT / "tools/lib/generate_text.py", "10"], check=True, capture_output=True).stdout
    with tempfile.TemporaryDirectory() as folder:
        loops = in_c(pathlib.Path(folder))
        for _ in range(10 if given.check else 1):
            ratios = [report(name, text, *least(calls(loops, text), given.rounds)) for name, text in texts.items()]
            if min(ratios) >= 0.8:
                break
    print(f"benchmark_python.py: tokens has at least {min(ratios):.2f} of the speed of wat_fill, the least of {given.rounds} rounds each")
    return given.check and min(ratios) < 0.8


if __name__ == "__main__":
    sys.exit(main())
