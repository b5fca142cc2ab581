#!/usr/bin/env python3
"""Finds texts for which time or memory of `wat_tokens module --no-validate` grows faster than the text. Each kind of module, those of
tools/test/cost/texts.py and those of MORE, is compiled with 6.25, 12.5, 25 and 50 MB; those of VALIDATED are validated as well. A time is the user and
system time of a process, a memory its largest resident size, each the least of three runs. It is a fault if doubling the text multiplies one of them by
more than 2.6, or if a process takes more than 120 s or 12 GB. As other processes disturb the times, a kind with a fault is measured again, at most ten
times, and the least of all runs count.

usage: growth.py PROGRAM [KIND..]     PROGRAM is wat_tokens, without KIND all kinds
"""
import itertools
import os
import pathlib
import resource
import subprocess
import sys
import tempfile

sys.dont_write_bytecode = True
sys.path.append(str(pathlib.Path(__file__).resolve().parent / "cost"))

from texts import MODULES, body, lines

SIZES = [6_250_000, 12_500_000, 25_000_000, 50_000_000]
MOST = 2.6
RUNS, TRIES = 3, 10
# Times below it are not compared, as they vary.
SECONDS = 0.1
MEGABYTES = 16

MORE = {
    "annotations": lines(lambda i: f'(@a{i} "b")\n'),
    "branches_far": body(lambda i: f"block $l{i} br $l{i // 2}\n", "end "),
    "branches_shadowed": body(lambda i: "block $l br $l\n", "end "),
    "branch_tables_deep": body(lambda i: f"block $l{i} (br_table $l{i // 2} $l{i // 3} $l0 (i32.const 0))\n", "end "),
    "calls_by_name": lines(lambda i: f"(func $f{i} call $f{i // 2} call $f0)\n"),
    "customs": lines(lambda i: f'(@custom "c{i}" "a")\n'),
    "customs_placed": lines(lambda i: f'(@custom "c{i}" (after type) "a")\n'),
    "data_named": lines(lambda i: f'(data $d{i} "a") (func data.drop $d{i // 2})\n'),
    "elements_named": lines(lambda i: f"(elem $e{i} func 0) (func elem.drop $e{i // 2})\n", "(module (func)\n"),
    "error_duplicate": lines(lambda i: f"(func $f{i})\n", tail="(func $f0))\n"),
    "exports_inline": lines(lambda i: f'(func (export "e{i}"))\n'),
    "folded_blocks": body(lambda i: "(block (result i32) ", ")"),
    "folded_ifs": body(lambda i: "(if (i32.const 0) (then ", "))"),
    "folded_labels": body(lambda i: f"(block $l{i} (br $l{i // 2}) ", ")"),
    "globals_by_name": lines(lambda i: f"(global $g{i} i32 (i32.const 0)) (func global.get $g{i // 2} drop)\n"),
    "hexadecimal": lines(lambda _: "\\ff\\00", '(module (memory 1) (data (i32.const 0) "', '"))\n'),
    "ifs": body(lambda i: "if else ", "end "),
    "imports_inline": lines(lambda i: f'(func $f{i} (import "a" "b{i}"))\n'),
    "locals_by_name": lines(
        lambda i: f"local.get $x{i % 1000} drop\n", "(module (func " + "".join(f"(param $x{i} i32)" for i in range(1000)), "))\n"
    ),
    "names_annotated": lines(lambda i: f'(func (@name "f{i}") (param (@name "p{i}") i32) block (@name "l{i}") end)\n'),
    "numbers": body(lambda i: f"i64.const 0x{i:_x} f64.const 1e{i % 300} f32.const nan:0x{i % 1000 + 1:x} drop drop drop\n"),
    "parameters": lines(lambda _: "(param i32)", "(module (func ", "))\n"),
    "parameters_named": lines(lambda i: f"(param $p{i} i32)", "(module (func ", "))\n"),
    "results": lines(lambda _: "(result i32)", "(module (func ", "))\n"),
    "selects": body(lambda i: "select (result i32)\n"),
    "shuffles": body(lambda i: "i8x16.shuffle 0 1 2 3 4 5 6 7 8 9 10 11 12 13 14 15\n"),
    "tables_named": lines(lambda i: f"(table $t{i} 1 funcref) (func (drop (table.size $t{i // 2})))\n"),
    "types_by_name": lines(lambda i: f"(type $t{i} (func (param i32))) (func (type $t{i // 2}))\n"),
    "types_implicit": body(lambda i: f"(block (param{' i32' * (i % 97)} i64{' f32' * (i // 97 % 89)}))\n"),
    "vectors": body(lambda i: f"v128.const i32x4 {i} 1 2 3 drop\n"),
}

# Kinds of valid modules that are compiled without `--no-validate`.
VALIDATED = {
    "locals_alternating": lines(lambda i: f"local.get {4 * i} drop\n", lambda size: f"(module (func (local{' i32 i64' * (size // 16)})\n", "))\n"),
}


def limit():
    resource.setrlimit(resource.RLIMIT_CPU, (120, 120))
    resource.setrlimit(resource.RLIMIT_AS, (12 * 10**9, 12 * 10**9))


def measured(program, options, path):
    """Returns a process's status, its processor time in seconds and its largest resident size in MB."""
    with open(os.devnull, "wb") as nothing:
        process = subprocess.Popen([program, "module", *options, str(path)], stdout=nothing, stderr=nothing, preexec_fn=limit)
        _, status, usage = os.wait4(process.pid, 0)
    process.returncode = os.waitstatus_to_exitcode(status)
    return process.returncode, usage.ru_utime + usage.ru_stime, usage.ru_maxrss / 1024


def rows_of(program, options, path, text, before):
    """Returns a row for each size of a kind: the size, a status, a time and a memory, with the least times and memories of these runs and of the rows
    `before`."""
    rows = []
    for size, earlier in itertools.zip_longest(SIZES, before):
        path.write_text(text(size))
        statuses, times, memories = zip(*([earlier[1:]] if earlier else []), *(measured(program, options, path) for _ in range(RUNS)))
        rows.append((size, max(statuses, key=abs), min(times), min(memories)))
    return rows


def faults_of(name, rows):
    """Yields a line for each fault of a kind. A row has a size, a status, a time and a memory."""
    for size, status, seconds, _ in rows:
        if status != (1 if name.startswith("error") else 0):
            yield f"{name}: {size} bytes: status {status} after {seconds:.1f} s"
    for (_, _, seconds, memory), (size, _, more_seconds, more_memory) in itertools.pairwise(rows):
        if seconds >= SECONDS and more_seconds > MOST * seconds:
            yield f"{name}: {size} bytes: {more_seconds:.2f} s, {more_seconds / seconds:.2f} times as much as for half of them"
        if memory >= MEGABYTES and more_memory > MOST * memory:
            yield f"{name}: {size} bytes: {more_memory:.0f} MB, {more_memory / memory:.2f} times as much as for half of them"


def main():
    program, *names = sys.argv[1:]
    kinds = MODULES | MORE | VALIDATED
    faults = 0
    with tempfile.TemporaryDirectory() as folder:
        path = pathlib.Path(folder) / "text.wat"
        for name in names or kinds:
            options = [] if name in VALIDATED else ["--no-validate"]
            rows, found = [], [name]
            for _ in range(TRIES):
                rows = rows_of(program, options, path, kinds[name], rows)
                found = list(faults_of(name, rows))
                if not found:
                    break
            print(f"{name:20} " + "  ".join(f"{seconds:6.2f} s {memory:6.0f} MB" for _, _, seconds, memory in rows), flush=True)
            for fault in found:
                faults += 1
                print(fault, flush=True)
    print(f"growth.py: {len(names or kinds)} kinds of module, {faults} faults")
    sys.exit(bool(faults))


main()
