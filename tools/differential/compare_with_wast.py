#!/usr/bin/env python3
"""Compares wat_tokens with a program that uses the crate wast: the token list, the exit status, and the message of a lexical error.

The program is tools/differential/wast_tokens, `cd tools/differential/wast_tokens && cargo build --release`. Both read the same texts, each with and
without `--allow-confusing`: the given files, all files below a given folder, and mutants of each. A mutant has 1 to 3 random changes: it is cut, or a
few characters are deleted, duplicated or replaced, or a fragment is inserted. A text on which they differ is kept in the folder `differ`, and the
exit status is then 1.

usage: compare_with_wast.py [--mutants N] [--seed N] [--workers N] WAT_TOKENS ORACLE PATH..
"""
import argparse
import pathlib
import random
import subprocess
import sys
from concurrent.futures import ThreadPoolExecutor

SETTINGS = [[], ["--allow-confusing"]]
# Fragments that mutants insert: they are invalid, or begin or end a token.
PIECES = """( ) (; ;) ;; " $ @ (@a (@"a" $"b" @"" \\ \\n \\u{ \\u{1_0} \\u{1__0} \\u{d800} \\u{110000} \\4 \\ff _ 1_ 0x 0x1p+ 1. 1e nan:0x +inf -nan , ; [ ] { }
a é 漢""".split() + ["\n", "\r", "\r\n", "\t", " ", "\0", "\x7f", "\u202e", "\u2066", "\u20ac", "a" * 17, " " * 16]
# The length in characters of the part of a long text that is mutated.
LONGEST_MUTANT = 4000


def changed(rng, text):
    """Returns the text with one random change."""
    at = rng.randrange(len(text) + 1)
    to = min(len(text), at + rng.randrange(1, 9))
    return rng.choice(
        [
            text[:at],
            text[at:],
            text[:at] + rng.choice(PIECES) + text[at:],
            text[:at] + rng.choice(PIECES) + text[to:],
            text[:at] + text[to:],
            text[:to] + text[at:],
        ]
    )


def mutants(rng, text, count):
    for _ in range(count):
        start = rng.randrange(max(1, len(text) - LONGEST_MUTANT))
        mutant = text[start : start + LONGEST_MUTANT]
        for _ in range(rng.randrange(1, 4)):
            mutant = changed(rng, mutant)
        yield mutant


def files(paths):
    for path in paths:
        yield from sorted(it for it in path.rglob("*") if it.is_file()) if path.is_dir() else [path]


def texts(options):
    """Yields the texts as bytes, each after its name."""
    rng = random.Random(options.seed)
    for file in files(options.paths):
        data = file.read_bytes()
        yield str(file), data
        text = data.decode("utf-8", errors="replace")
        for at, mutant in enumerate(mutants(rng, text, options.mutants)):
            yield f"{file}, mutant {at}", mutant.encode()


def answer(program, words, data):
    run = subprocess.run([program, *words], input=data, capture_output=True)
    return run.returncode, run.stdout, run.stderr


def differences(options, name, data):
    """Returns the number of runs, the number of lexical errors among them, and a line for each difference."""
    faults, lines = 0, []
    for words in SETTINGS:
        ours, theirs = answer(options.wat_tokens, words, data), answer(options.oracle, words, data)
        faults += theirs[0] == 1
        parts = [it for it, x, y in zip(["status", "list", "message"], ours, theirs) if x != y]
        if parts:
            lines.append(f"{name} {' '.join(words)}: {', '.join(parts)}: {ours[0]} {ours[2]!r}, the crate {theirs[0]} {theirs[2]!r}")
    return len(SETTINGS), faults, lines


def keep(data, number):
    folder = pathlib.Path("differ")
    folder.mkdir(exist_ok=True)
    (folder / f"{number:03}.wat").write_bytes(data)


def arguments():
    parser = argparse.ArgumentParser(usage=__doc__.rsplit("usage: ", 1)[1].strip())
    parser.add_argument("--mutants", type=int, default=3)
    parser.add_argument("--seed", type=int, default=1)
    parser.add_argument("--workers", type=int, default=4)
    parser.add_argument("wat_tokens")
    parser.add_argument("oracle")
    parser.add_argument("paths", type=pathlib.Path, nargs="+")
    return parser.parse_args()


def main():
    options = arguments()
    count = runs = faults = differ = kept = 0
    with ThreadPoolExecutor(options.workers) as pool:
        for data, found in pool.map(lambda it: (it[1], differences(options, *it)), texts(options)):
            count, runs, faults, differ = count + 1, runs + found[0], faults + found[1], differ + len(found[2])
            if found[2]:
                kept += 1
                keep(data, kept)
                print("\n".join(found[2]), flush=True)
    print(f"compare_with_wast.py: {count} texts, {runs} runs, {faults} with a fault, {runs - differ} the same, {differ} differ")
    return 1 if differ or not runs else 0


sys.exit(main())
