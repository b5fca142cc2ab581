#!/usr/bin/env python3
"""Benchmarks examples/scale: texts for each second with 1, 2 and 4 workers, against one process of a program for each text, in a shell loop: the
program wat_tokens, and wat2wasm if it is installed. The texts are real ones, of a folder, and generated modules. Prints the load and a table for
docs/scale.md. The tables that the job writes must be equal.

usage: benchmark_scale.py [--prepare] [--texts N] [--in-loop N] [--real FOLDER] WORK     default: 100,000 texts, of which the loops read 2,000

WORK gets the texts, which are not generated again; with --prepare nothing is measured. PYTHONPATH has the package wat_lex, as `make wheel` builds it;
cargo builds the program.
"""
import argparse
import itertools
import os
import pathlib
import resource
import shutil
import subprocess
import sys
import time

from distributed import Client, LocalCluster

sys.dont_write_bytecode = True
ROOT = pathlib.Path(__file__).resolve().parents[2]
sys.path += [str(ROOT / "tools/differential"), str(ROOT / "examples/scale")]

import generate_modules
import scale

WORKERS = (1, 2, 4)


def texts(folder, count, real):
    """Writes `count` texts to a folder, those of the folder `real` first, and returns their paths."""
    folder.mkdir(parents=True, exist_ok=True)
    paths = [folder / f"{number:06}.wat" for number in range(count)]
    sources = [path.read_text(encoding="utf-8") for path in sorted(real.glob("*.wat"))] if real else []
    for path, text in zip(paths, itertools.chain(sources, generated())):
        if not path.exists():
            path.write_text(text, encoding="utf-8")
    return paths


def generated():
    """Yields the texts of generated modules, of which each fifth has a changed token."""
    for seed in itertools.count():
        made = generate_modules.made_texts(generate_modules.choices(seed, []), 400, 100)
        yield from (text for _, _, text in made)


def by_workers(urls, workers, out):
    """Returns the seconds in which a number of workers write the table, without their start, and the processor time that they use."""
    with LocalCluster(n_workers=workers, threads_per_worker=1, processes=True, dashboard_address=":0") as cluster, Client(cluster) as client:
        client.register_worker_plugin(scale.Limit(1 << 30))
        list(scale.table(client, urls[:50], 10, 1 << 26))
        used, begun = sum(client.run(time.process_time).values()), time.perf_counter()
        scale.written(scale.table(client, urls, 200, 1 << 26), out)
        seconds = time.perf_counter() - begun
        return seconds, sum(client.run(time.process_time).values()) - used


def in_loop(command, paths, work):
    """Returns the seconds of a shell loop that runs a command for each text, and the processor time of all its processes."""
    (work / "list").write_text("".join(f"{path}\n" for path in paths), encoding="utf-8")
    script = f'while read -r text; do {command} "$text" > /dev/null 2>&1; done < list'
    used, begun = processor_time(), time.perf_counter()
    subprocess.run(["bash", "-c", script], check=False, cwd=work, stderr=subprocess.DEVNULL)
    return time.perf_counter() - begun, processor_time() - used


def processor_time():
    """Returns the processor time of all processes that this one started, and that have ended."""
    used = resource.getrusage(resource.RUSAGE_CHILDREN)
    return used.ru_utime + used.ru_stime


def report(name, count, seconds, used):
    """Prints a row of the table."""
    print(f"| {name} | {count:,} | {count / seconds:,.0f} | {1e3 * used / count:.2f} |", flush=True)


def commands():
    """Returns the commands of the loops, by name."""
    program = pathlib.Path(os.environ.get("WAT_PROGRAM", ROOT / "rust/target/release/wat_tokens")).resolve()
    found = {"`wat_tokens module --no-validate`, a process for each text": f"{program} module --no-validate"}
    return found | ({"`wat2wasm --no-check`, a process for each text": "wat2wasm --no-check -o /dev/null"} if shutil.which("wat2wasm") else {})


def main():
    arguments = argparse.ArgumentParser()
    arguments.add_argument("--prepare", action="store_true")
    arguments.add_argument("--texts", type=int, default=100_000)
    arguments.add_argument("--in-loop", type=int, default=2000)
    arguments.add_argument("--real", type=pathlib.Path)
    arguments.add_argument("work", type=pathlib.Path)
    given = arguments.parse_args()
    paths = texts(given.work.resolve() / "texts", given.texts, given.real)
    if given.prepare:
        return 0
    # Reads each text once, so that every run finds them in memory.
    urls, tables, size = [path.as_uri() for path in paths], [], sum(len(path.read_bytes()) for path in paths)
    print(f"{len(paths):,} texts, {size:,} bytes; load {os.getloadavg()[0]:.1f}, {os.cpu_count()} processors")
    print("| reader | texts | texts for each second | processor time of a text, ms |\n|---|---|---|---|")
    for workers in WORKERS:
        tables.append(given.work / f"table-{workers}.csv")
        report(f"`scale.py`, workers: {workers}", len(paths), *by_workers(urls, workers, tables[-1]))
    some = paths[:: max(len(paths) // given.in_loop, 1)]
    for name, command in commands().items():
        report(name, len(some), *in_loop(command, some, given.work.resolve()))
    print(f"load {os.getloadavg()[0]:.1f}")
    return len({table.read_bytes() for table in tables}) != 1


if __name__ == "__main__":
    sys.exit(main())
