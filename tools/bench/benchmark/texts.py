#!/usr/bin/env python3
"""Writes texts for benchmarks that tools/lib/generate_kinds.py and tools/lib/generate_text.py do not write.

usage: texts.py FOLDER GENERATED

annotated     GENERATED with an annotation after each tenth line
dense         10 MB of short lines with annotations, nested and quoted ones among them
u32_..        a million 32-bit integers: decimal, hexadecimal, and in all notations
groups        300,000 groups
line_..       a line of 1 kB, 100 kB or 1 MB, with a lexical error at its end
"""
import pathlib
import random
import sys

RNG = random.Random(11)
ANNOTATION = '(@name "a group" (with (groups) 1) $in it)\n'
DENSE = ["(a)", "()", "(@a)", "(@a b)", "(@a(@b))", '(@"a b" 1)', "((@name x))", "1 2 3", "$a $b", "(@a)(b)(@c d)", "a b(c)"]


def spelled(number):
    digits = f"{number:,}".replace(",", "_")
    return RNG.choice([str(number), f"+{number}", f"{number:#x}", f"{number:#X}".replace("0X", "0x"), digits, f"0x{number:_x}"])


def numbers(spell):
    return "".join(spell(RNG.randrange(1 << RNG.randrange(1, 33))) + "\n" for _ in range(1_000_000))


def group():
    one, two, three = (RNG.randrange(1 << 16) for _ in range(3))
    parts = [f"(b {one})", f"(c {two} {three})"]
    RNG.shuffle(parts)
    return f"(a {parts[0]} {parts[1]})\n"


def lines(pieces, size):
    written, parts = 0, []
    while written < size:
        parts.append(RNG.choice(pieces) + "\n")
        written += len(parts[-1])
    return "".join(parts)


def main():
    folder, generated = pathlib.Path(sys.argv[1]), pathlib.Path(sys.argv[2])
    with open(generated, encoding="utf-8", newline="") as text:
        annotated = "".join(line + ANNOTATION * (number % 10 == 9) for number, line in enumerate(text))
    texts = {
        "annotated": annotated,
        "dense": lines(DENSE, 10_000_000),
        "u32_decimal": numbers(str),
        "u32_hexadecimal": numbers(hex),
        "u32_mixed": numbers(spelled),
        "groups": "".join(group() for _ in range(300_000)),
        "line_1_kB": "a" * 999 + "\x01",
        "line_100_kB": "a" * 99_999 + "\x01",
        "line_1_MB": "a" * 999_999 + "\x01",
    }
    for name, text in texts.items():
        (folder / f"{name}.wat").write_text(text, encoding="utf-8", newline="")


if __name__ == "__main__":
    main()
