#!/usr/bin/env python3
"""Writes generated WebAssembly text to standard output, for benchmarks.

usage: generate_text.py MEGABYTES [SEED]
"""
import random
import sys

WORDS = ["module", "func", "param", "result", "i32", "i64", "local.get", "i32.add", "call", "block", "loop", "br_if", "memory", "data", "export"]


def number(rng):
    return rng.choice([
        lambda: str(rng.randrange(1 << 20)),
        lambda: "-" + str(rng.randrange(1 << 31)),
        lambda: hex(rng.randrange(1 << 40)),
        lambda: "1_000_000",
        lambda: f"{rng.randrange(1000)}.{rng.randrange(1000)}e-{rng.randrange(30)}",
        lambda: "0x1.8p3",
        lambda: "nan:0x7f_ffff",
    ])()


def string(rng):
    body = "".join(rng.choice(["abc", " ", "\\n", "\\00", "\\u{1f600}", "é", "漢", "data"]) for _ in range(rng.randrange(8)))
    return f'"{body}"'


def line(rng, depth):
    indent = "  " * depth
    kind = rng.randrange(20)
    if kind == 0:
        return f"{indent};; {rng.choice(['a comment', 'größer – als', 'loop over the elements'])}\n"
    if kind == 1:
        return f"{indent}(; a block (; nested ;) comment ;)\n"
    if kind < 4:
        return f"{indent}({rng.choice(WORDS)} {string(rng)})\n"
    if kind < 10:
        return f"{indent}({rng.choice(WORDS)} ${rng.choice(WORDS)}{rng.randrange(1000)} {number(rng)})\n"
    if kind == 10:
        return f"{indent}(@custom \"x\" {rng.choice(WORDS)})\n"
    return f"{indent}({rng.choice(WORDS)} ({rng.choice(WORDS)} {rng.choice(WORDS)}) ({rng.choice(WORDS)} ${rng.choice(WORDS)}))\n"


def main():
    size = int(float(sys.argv[1]) * 1_000_000)
    rng = random.Random(int(sys.argv[2]) if len(sys.argv) > 2 else 1)
    written = 0
    while written < size:
        text = "".join(line(rng, rng.randrange(6)) for _ in range(2000))
        sys.stdout.write(text)
        written += len(text.encode())


main()
