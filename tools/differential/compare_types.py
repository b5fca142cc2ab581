#!/usr/bin/env python3
"""Compares `wat_tokens types` with the reference implementation `wat2wasm` (Debian's package wabt) on generated modules of function types.

Both must write the same bytes for each of 50 modules of up to 40 types. With --times, both then compile one module of 100,000 types, in turn,
and the best times are printed; each run of `wat2wasm` takes a minute.

usage: compare_types.py PROGRAM [--times]
"""

import random
import subprocess
import sys
import tempfile
import time

VALS = ["i32", "i64", "f32", "f64"]
GAPS = [" ", "\n", "\t", " (; a comment ;) ", " ;; a comment\n", "(;;)"]
MODULES, MOST_TYPES, MANY_TYPES, PASSES = 50, 40, 100_000, 3


def listed(rng, word):
    """Returns a group with the keyword and up to 4 value types."""
    return f"({word}{''.join(rng.choice(GAPS) + rng.choice(VALS) for _ in range(rng.randrange(5)))})"


def params(rng):
    """Returns groups of parameters, some of which have an identifier."""
    groups = []
    for at in range(rng.randrange(4)):
        named = f"(param{rng.choice(GAPS)}$p{at}{rng.choice(GAPS)}{rng.choice(VALS)})"
        groups.append(rng.choice([named, listed(rng, "param")]))
    return groups


def definition(rng, place):
    """Returns a type definition, with or without an identifier."""
    fields = params(rng) + [listed(rng, "result") for _ in range(rng.randrange(3))]
    func = "(func" + "".join(rng.choice(GAPS) + it for it in fields) + ")"
    name = rng.choice(["", f'{rng.choice(GAPS)}$t{place}'])
    return f"(type{name}{rng.choice(GAPS)}{func})"


def module(rng, count):
    """Returns a module of `count` function types."""
    return "(module" + "".join(rng.choice(GAPS) + definition(rng, at) for at in range(count)) + ")\n"


def compiled(command, text):
    """Returns the bytes that a command writes for a text, and the seconds that it runs. Exits with a message if the command fails."""
    begun = time.perf_counter()
    ran = subprocess.run(command, input=text.encode(), capture_output=True)
    seconds = time.perf_counter() - begun
    if ran.returncode:
        sys.exit(f"{command[0]} refuses a module: {ran.stderr.decode()[:300]}")
    return ran.stdout, seconds


def reference(text, room):
    """Returns the bytes that `wat2wasm` writes for a text, and the seconds that it runs. The text is passed as a file."""
    with open(f"{room}/module.wat", "w", encoding="utf-8") as it:
        it.write(text)
    return compiled(["wat2wasm", f"{room}/module.wat", "--output=-"], "")


def compare(program, rng, room):
    """Compares the bytes of many modules, and exits with a message at the first difference."""
    types = 0
    for place in range(MODULES):
        count = rng.randrange(MOST_TYPES + 1)
        text = module(rng, count)
        if compiled([program, "types"], text)[0] != reference(text, room)[0]:
            sys.exit(f"module {place} has other bytes:\n{text}")
        types += count
    print(f"compare_types.py: {MODULES} modules with {types} types: the same bytes")


def measure(program, rng, room):
    """Compares the bytes of one large module, and prints the best times."""
    text = module(rng, MANY_TYPES)
    ours, theirs = [], []
    for _ in range(PASSES):
        ours.append(compiled([program, "types"], text))
        theirs.append(reference(text, room))
    if ours[0][0] != theirs[0][0]:
        sys.exit("the large module has other bytes")
    best = [1000 * min(it[1] for it in passes) for passes in (ours, theirs)]
    print(f"{MANY_TYPES} types, {len(text)} bytes: {best[0]:.0f} ms; wat2wasm {best[1]:.0f} ms; the same {len(ours[0][0])} bytes")


def main(program, *options):
    rng = random.Random(1)
    with tempfile.TemporaryDirectory() as room:
        compare(program, rng, room)
        if options == ("--times",):
            measure(program, rng, room)


main(*sys.argv[1:])
