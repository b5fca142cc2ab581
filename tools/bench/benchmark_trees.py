#!/usr/bin/env python3
"""Benchmarks `parse` of the syntax trees of wast 222.0.0, including the creation of its buffer and the drop of its tree, on its own lowest layer and
on rust/wat-parser. The drivers are those that tools/differential/drop_in.sh leaves. Rounds run in turn, and each has the least time of 5 passes.
Prints rows for docs/speed/trees.tsv: the least times of the rounds, the ratio of the medians, and the first passes of processes. The objects of a
library are read as `Wast`, each with its least time of 9 passes.

usage: benchmark_trees.py WORK CPU ROUNDS TEXT.. [-- OBJECT..]     WORK and its drivers; texts; short texts, summed up
"""
import datetime
import os
import pathlib
import statistics
import subprocess
import sys

PASSES, FIRSTS = 5, 11


def answer(driver, cpu, *words):
    """Returns the least time that a driver prints, in milliseconds."""
    said = subprocess.run(["taskset", "-c", cpu, driver, *words], check=True, capture_output=True, text=True).stdout
    return float(said.split("\t")[1])


def turns(drivers, rounds, cpu, words):
    """Returns the times of both drivers, which run in turn."""
    times = {name: [] for name in drivers}
    for number in range(rounds):
        for name in list(drivers)[:: -1 if number % 2 else 1]:
            times[name].append(answer(drivers[name], cpu, *words))
    return times["ours"], times["theirs"]


def row(suite, text, call, ours, theirs):
    print(f"{suite}\t{text}\t{call}\t{ours:.2f}\t{theirs:.2f}\t{theirs / ours:.2f}", flush=True)


def main():
    work, cpu, rounds, *words = sys.argv[1:]
    end = words.index("--") if "--" in words else len(words)
    texts, objects = words[:end], words[end + 1 :]
    drivers = {name: f"{work}/{name}/target/release/driver" for name in ("ours", "theirs")}
    model = next(line.split(": ")[1].strip() for line in open("/proc/cpuinfo", encoding="utf-8") if line.startswith("model name"))
    commit = subprocess.run(["git", "rev-parse", "--short", "HEAD"], check=True, capture_output=True, text=True).stdout.strip()
    print(f"# {datetime.date.today()}, commit {commit}, {model}, {os.cpu_count()} processors, load {os.getloadavg()[0]:.1f}; {rounds} rounds")
    print("# suite\ttext\tcall\tours\twast\tratio")
    for text in texts:
        ours, theirs = turns(drivers, int(rounds), cpu, ["time", str(PASSES), text])
        name = pathlib.Path(text).stem
        row("trees", name, "parse::<Wat>", min(ours), min(theirs))
        row("trees, middle", name, "parse::<Wat>", statistics.median(ours), statistics.median(theirs))
        ours, theirs = turns(drivers, FIRSTS, cpu, ["time", "1", text])
        row("first, trees", name, "parse::<Wat>", statistics.median(ours), statistics.median(theirs))
    if objects:
        ours, theirs = turns(drivers, int(rounds), cpu, ["corpus", "9", *objects])
        row("trees", f"{len(objects)} short texts", "parse::<Wast>", min(ours), min(theirs))
        row("trees, middle", f"{len(objects)} short texts", "parse::<Wast>", statistics.median(ours), statistics.median(theirs))


main()
