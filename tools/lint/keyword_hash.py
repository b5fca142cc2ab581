#!/usr/bin/env python3
"""Writes the slots of the instruction keywords into crates/wat_module_ast/src/slots.rt: a perfect hash of the keywords in table.rt.

usage: tools/lint/keyword_hash.py [--check]

The hash of a keyword is the sum of its bytes, each multiplied by a power of 5, modulo 2^32. Keywords whose hashes have the same remainder modulo
MOVES form a group. A group is moved by the least number with which each of its keywords has an empty slot; the largest groups are placed first. With
--check nothing is written, and the exit status is 1 if the file differs. The prover checks the result: each row's index is in its keyword's slot.
"""
import pathlib
import re
import sys
import textwrap

SOURCES = pathlib.Path(__file__).resolve().parents[2] / "crates/wat_module_ast/src"
WORD = re.compile(r'^    \w+!\("([^"]+)", 0x', re.M)
MOVES, SLOTS = 128, 512


def hash_of(word):
    number = 0
    for byte in word.encode():
        number = (number * 5 + byte) % 2**32
    return number


def slots_of(hashes, move):
    """Returns the slots of keywords, given their hashes and the move of their group."""
    return [(number // MOVES + move) % SLOTS for number in hashes]


def tables(words):
    """Returns the move of each group of keywords, and the keyword's index in each slot. An empty slot has the number of keywords."""
    groups = {}
    for place, word in enumerate(words):
        groups.setdefault(hash_of(word) % MOVES, {})[place] = hash_of(word)
    moves, slots = [0] * MOVES, [len(words)] * SLOTS
    for remainder, group in sorted(groups.items(), key=lambda item: (-len(item[1]), item[0])):
        moves[remainder] = least_move(slots, group, len(words))
        for place, slot in zip(group, slots_of(group.values(), moves[remainder])):
            slots[slot] = place
    return moves, slots


def least_move(slots, group, empty):
    """Returns the least 8-bit move with which each keyword of a group has its own empty slot."""
    for move in range(256):
        wanted = slots_of(group.values(), move)
        if len(set(wanted)) == len(wanted) and all(slots[slot] == empty for slot in wanted):
            return move
    sys.exit(f"no slots for {len(group)} words: other numbers of MOVES and SLOTS, or another factor, are needed")


def constant(text, name, numbers):
    """Returns the text with these numbers as the value of a constant, formatted as by `rt fmt`."""
    lines = textwrap.fill(", ".join(map(str, numbers)) + ",", 99, initial_indent="    ", subsequent_indent="    ")
    return re.sub(rf"(const {name}: \[\w+; \d+\] = )\[[^\]]*\];", rf"\g<1>[\n{lines}\n];", text)


def main():
    file = SOURCES / "slots.rt"
    words = WORD.findall((SOURCES / "table.rt").read_text(encoding="utf-8"))
    moves, slots = tables(words)
    text = file.read_text(encoding="utf-8")
    written = constant(constant(text, "MOVES", moves), "SLOTS", slots)
    if sys.argv[1:] == ["--check"]:
        print(f"keyword_hash.py: {len(words)} words, {'0 faults' if written == text else f'other slots than those of {file.name}'}")
        return 0 if written == text else 1
    file.write_text(written, encoding="utf-8")
    return 0


if __name__ == "__main__":
    sys.exit(main())
