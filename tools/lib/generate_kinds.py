#!/usr/bin/env python3
"""Writes texts of one kind each, for benchmarks. Usage: generate_kinds.py FOLDER [MEGABYTES]"""
import os
import random
import sys

RNG = random.Random(7)
IDCHARS = "abcdefghijklmnopqrstuvwxyzABCDEFGHIJKLMNOPQRSTUVWXYZ0123456789!#$%&'*+-./:<=>?@\\^_`|~"
WORDS = ("module func param result i32 i64 local.get i32.add call block loop br_if memory data export i64.const "
         "local.set end").split()
PLAIN = "abcdef ghi_klm."
COMMENT = "abcdef ghi, klm. (x) ; "


def some(letters, low, high):
    return "".join(RNG.choice(letters) for _ in range(RNG.randint(low, high)))


def identifier(low, high):
    return "$" + some(IDCHARS, low, high)


def number():
    return RNG.choice([str(RNG.randrange(10)), str(RNG.randrange(1 << 16)), "-%d" % RNG.randrange(1 << 31)])


def real_number():
    return RNG.choice([
        "%d.%de-%d" % (RNG.randrange(1000), RNG.randrange(100000), RNG.randrange(30)),
        "0x1.%xp%d" % (RNG.randrange(1 << 40), RNG.randrange(100)),
        "-%d.5" % RNG.randrange(1000), "nan:0x7fffff", "inf"])


def data():
    """Returns the contents of a data segment: letters and digits, and escapes of two hexadecimal digits."""
    bytes_ = [RNG.randrange(256) for _ in range(RNG.randint(16, 400))]
    return "".join(chr(byte) if chr(byte) in IDCHARS[:62] and RNG.random() < 0.9 else "\\%02x" % byte for byte in bytes_)


def prose():
    return "".join(RNG.choice(["the value was ", "line %d" % RNG.randrange(1000), "\\n", "\\22", "caf\\u{e9} "]) for _ in range(RNG.randint(1, 9)))


def many(piece, size):
    """Returns random pieces of at least `size` bytes together. The pieces are shuffled for each repetition."""
    block = [piece() for _ in range(4000)]
    parts, length = [], 0
    while length < size:
        RNG.shuffle(block)
        parts.append("".join(block))
        length += len(parts[-1].encode())
    return "".join(parts)


PIECES = {
    "blanks_indent": lambda: "(\n" + " " * RNG.choice([2, 4, 6, 8, 10, 12]),
    "blanks_single": lambda: "( ",
    "line_comments": lambda: ";; " + some(COMMENT, 20, 60) + "\n",
    "line_long": lambda: ";;" + "x" * 4000 + "\n",
    "block_comments": lambda: "(; " + some("abcdef ghi, klm.", 20, 60) + " ;)\n",
    "ids_short": lambda: identifier(1, 6) + " ",
    "ids_long": lambda: identifier(30, 60) + " ",
    "keywords": lambda: RNG.choice(WORDS) + " ",
    "integers": lambda: number() + " ",
    "hex": lambda: "0x%x " % RNG.randrange(1 << 62),
    "integers_long": lambda: some("0123456789", 30, 60) + " ",
    "floats": lambda: real_number() + " ",
    "strings_short": lambda: '"' + some(PLAIN, 2, 20) + '" ',
    "strings_long": lambda: '"' + some(PLAIN, 1000, 1000) + '" ',
    "strings_escapes": lambda: '"' + "".join("\\%02x" % RNG.randrange(256) for _ in range(RNG.randint(4, 40))) + '" ',
    "strings_unicode": lambda: '"' + some("äöé漢字😀ab", 4, 20) + '" ',
    "strings_mixed": lambda: '"' + data() + '" ',
    "strings_prose": lambda: '"' + prose() + '" ',
    "ids_quoted": lambda: '$"std::' + some(PLAIN, 10, 40) + '" ',
    "ids_escaped": lambda: '$"' + some(PLAIN, 4, 20) + "\\20" + some(PLAIN, 4, 20) + '" ',
    "integers_decimal": lambda: "%d " % RNG.randrange(1 << RNG.randint(1, 31)),
    "floats_decimal": lambda: "%.6g " % RNG.uniform(-1e5, 1e5),
    "floats_hex": lambda: "0x1.%xp%d " % (RNG.getrandbits(44), RNG.randint(-100, 100)),
}

WHOLE = {
    "blanks_one": lambda size: " " * size,
    "block_long": lambda size: "(;" + "lorem ipsum dolor (sit) amet; consectetur " * (size // 42) + ";)",
    "block_nested": lambda size: "(;" * (size // 4) + ";)" * (size // 4),
    "id_one": lambda size: "$" + "abcdefgh" * (size // 8),
    "parens": lambda size: "(" * (size // 2) + ")" * (size // 2),
    "marks": lambda size: ",;[]{}" * (size // 6),
}


def main():
    folder = sys.argv[1]
    size = int(float(sys.argv[2]) * 1e6) if len(sys.argv) > 2 else 8_000_000
    os.makedirs(folder, exist_ok=True)
    texts = {name: many(piece, size) for name, piece in PIECES.items()}
    texts.update((name, make(size)) for name, make in WHOLE.items())
    for name, text in texts.items():
        with open(os.path.join(folder, name + ".wat"), "w", encoding="utf-8") as out:
            out.write(text)


if __name__ == "__main__":
    main()
