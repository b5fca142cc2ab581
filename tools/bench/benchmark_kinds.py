#!/usr/bin/env python3
"""Benchmarks calls of the Rust crates against those of the crate wast 263.0.0, on texts of one kind each (tools/bench/benchmark_kinds/kinds.py). One
program, which cargo builds with its defaults, has both (tools/bench/benchmark_kinds). The instructions of a call are counted by callgrind on 50 kB,
and the calls take turns on 1 MB, in processor time of a thread, each with its least time of ROUNDS. Sums over the results must agree. Writes
docs/speed/kinds.tsv.

A row with a ratio below 1.5, or below 1.2 for long line comments, has its reason in its last column, from BELOW or, if only the ratio by time is
below it, from BY_TIME. The status is 1 if a row lacks one, or if a reason has no row.

usage: WAST=FOLDER benchmark_kinds.py WORK [ROUNDS]     WAST has the crate wast 263.0.0; WORK gets the texts and the program
       WAST=FOLDER benchmark_kinds.py --prepare WORK    builds the program, writes the texts and counts the instructions, which no load changes
       benchmark_kinds.py --time WORK [ROUNDS]          measures the times after that, and writes the table
       benchmark_kinds.py --reasons                     writes the reasons to docs/speed/kinds.tsv
       benchmark_kinds.py --check                       checks the reasons in docs/speed/kinds.tsv

  CARGO=cargo   cargo with its options, if no registry is available
  CPU=N         the processor for the times; default: any
  JOBS=1        the number of kinds at a time; more than one make the times less exact
  KINDS='A B'   only these kinds; the rows of the others stay as they are
"""
import concurrent.futures
import datetime
import json
import os
import pathlib
import re
import shutil
import subprocess
import sys

sys.dont_write_bytecode = True
HERE = pathlib.Path(__file__).resolve().parent
sys.path.append(str(HERE / "benchmark_kinds"))

import kinds
from benchmark_programs import output

DATA = HERE.parents[1] / "docs/speed/kinds.tsv"
SAMPLE, SIZE = 50_000, 1_000_000
# The calls that do not read the whole text.
REPEATED = ("ParseBuffer::new", "parser::parse, rejected")
JOBS = int(os.environ.get("JOBS", "1"))
BOUND, BOUND_OF_LONG = 1.5, 1.2
LONG = {"line_long", "line_4000", "line_64000", "line_one"}

# The reasons of ratios below the bound, of a kind or of one of its calls.
BY_32 = "`wast` searches a line by 32 bytes with AVX2, which it detects at run time; ours by 16"
UNDERSCORES = "an underscore sends a number to the general classifier, which runs about half of its instructions"
BELOW = {
    "Lexer::iter, collected": "a token that is collected takes about 50 instructions more, in `wast` 36, which shows in tokens of few bytes",
    "Token::string and so on": "a token whose value is read takes about 28 instructions more, in `wast` 14, which shows in tokens of few bytes",
    ("annotations_shown", "Parser::peek, peek2, peek3"): "three peeks skip the same group in turn; half of the instructions find it again",
    **{kind: BY_32 for kind in ("line_80", "line_300", "line_cyrillic", "line_cjk", *sorted(LONG))},
    ("line_20", "Lexer::iter, collected"): BY_32,
    "strings_typographic": "characters of general punctuation, among which are the bidirectional controls, are read one by one",
    "strings_u": "the digits of an escape are read one by one: half of the instructions",
    "block_nests": "delimiters are few bytes apart, and the number of those of 16 bytes is mispredicted",
    "reserved": "runs of characters and strings in a lexeme are a call each, of few bytes",
    "integers_underscored": UNDERSCORES,
    "hex_underscored": UNDERSCORES,
    "floats_underscored": UNDERSCORES,
}

# The reasons of ratios that are below the bound by time alone, of a kind or of one of its calls.
BY_TIME = {
    "ParseBuffer::new": "a pass of 1,000 calls, 46 instructions each on every text, takes 10 µs: its least of 9 has not settled; of 40 it is 1.66 to 1.87",
    "parser::parse, rejected": "the first of the 100 calls of a pass finds its code in no cache and takes 12 µs, in `wast` 10; 1.55 to 1.61 with 1,000 calls",
    "Lexer::iter, collected": "both write the same pages of a vector, which the system clears: 184 to 2,872 page faults for 1 MB",
    "Token::string and so on": "the jump by a token's kind to its value is mispredicted: callgrind simulates 1.2 to 1.7 times our mispredictions for `wast`",
    "floats_special": "`nan` and `inf` are found by the general classifier, at the end of a number's and a word's: a quarter of the instructions",
    ("wide", "Lexer::parse"): "six runs gave 1.38, 1.43, 1.46, 1.49, 1.53 and 2.04",
}


def repetitions(call, sample):
    """Returns how often tools/bench/benchmark_kinds makes a call in a pass that does not read the whole text."""
    line = sample.read_text(encoding="utf-8").split("\n")[0]
    return 1000 if call == "ParseBuffer::new" else min(max(100_000 // max(len(line.encode()), 1), 5), 100)


def build(work, crate):
    """Builds the program in a folder, with the crate wast in another, and returns its path."""
    for name in ("benchmark", "benchmark_rust", "benchmark_kinds"):
        shutil.copytree(HERE / name, work / name, dirs_exist_ok=True)
    manifest = work / "benchmark_kinds/Cargo.toml"
    text = re.sub("^wast = .*", f'wast = {{ path = "{crate}", default-features = false }}', manifest.read_text(encoding="utf-8"), flags=re.M)
    manifest.write_text(text.replace("../../../rust", str(HERE.parents[1] / "rust")), encoding="utf-8")
    words = [*os.environ.get("CARGO", "cargo").split(), "build", "--release", "--quiet", "--target-dir", work / "target"]
    subprocess.run(words, check=True, cwd=manifest.parent)
    return work / "target/release/benchmark_kinds"


def chosen():
    """Returns the names of the kinds to measure."""
    return os.environ["KINDS"].split() if "KINDS" in os.environ else list(kinds.kinds())


def write(folder, size):
    """Writes the texts of the kinds to a folder, and returns their paths."""
    folder.mkdir(parents=True, exist_ok=True)
    for name in chosen():
        # A keyword ends each text, so that each loop over all of it has a sum.
        (folder / f"{name}.wat").write_text(kinds.kinds()[name](size) + "\nend\n", encoding="utf-8", newline="")
    return [folder / f"{name}.wat" for name in chosen()]


def pairs_of(program):
    """Returns the loops of ours and of wast, and the call, of each pair."""
    return [line.split(" ", 2) for line in output(program, "functions", "kinds").strip().split("\n")]


def errors_of(words):
    """Runs the program, and returns the lines that it writes to standard error, without those of valgrind: text, loop, least milliseconds, .."""
    said = subprocess.run(words, capture_output=True, text=True)
    if said.returncode != 0:
        sys.exit(f"{words}: {said.stderr}")
    return [line.split("\t") for line in said.stderr.split("\n") if line.count("\t") == 6]


def counts(program, sample):
    """Returns the instructions of each loop over a text, by its name. Each loop runs once; callgrind writes a file before it, and one after it."""
    folder = sample.with_suffix("")
    shutil.rmtree(folder, ignore_errors=True)
    folder.mkdir()
    loops = [f"--{option}={name}" for pair in pairs_of(program) for name in pair[:2] for option in ("dump-before", "dump-after")]
    errors_of(["valgrind", "--tool=callgrind", f"--callgrind-out-file={folder}/out", *loops, program, "1", "kinds", sample])
    dumps = [path.read_text(encoding="utf-8") for path in folder.iterdir()]
    shutil.rmtree(folder)
    found = [(re.search("^desc: Trigger: --dump-after=(.*)", dump, re.M), re.search(r"^totals: (\d+)", dump, re.M)) for dump in dumps]
    return {loop[1]: int(total[1]) for loop, total in found if loop}


def times(program, rounds, text):
    """Returns the least time of each loop over a text, in milliseconds, by its name."""
    pinned = ["taskset", "-c", os.environ["CPU"]] if "CPU" in os.environ else []
    return {line[1]: float(line[2]) for line in errors_of([*pinned, program, str(rounds), "kinds", text])}


def rows(program, rounds, sample, text):
    """Returns the rows of a kind: suite, kind, call, instructions of ours and of wast, both ratios."""
    count, time = json.loads(sample.with_suffix(".json").read_text(encoding="utf-8")), times(program, rounds, text)
    lines = []
    for ours, theirs, call in pairs_of(program):
        units = repetitions(call, sample) if call in REPEATED else sample.stat().st_size
        numbers = count[ours] / units, count[theirs] / units, count[theirs] / count[ours], time[theirs] / time[ours]
        lines.append("\t".join(["kinds", text.stem, call, *(f"{number:.2f}" for number in numbers)]))
    print("\n".join(lines), flush=True)
    return lines


def head(rounds):
    model = next(line.split(": ")[1].strip() for line in open("/proc/cpuinfo", encoding="utf-8") if line.startswith("model name"))
    load = " ".join(f"{load:.2f}" for load in os.getloadavg()[:2])
    yield f"# {datetime.date.today()}, commit {output('git', 'rev-parse', '--short', 'HEAD').strip()}, {model}, {os.cpu_count()} processors, load {load},"
    yield f"# {' '.join(output('rustc', '--version').split()[:2])}; {JOBS} kinds at a time; instructions by callgrind, for each byte of 50 kB; ratios by instructions and by time,"
    yield f"# the least of {rounds} rounds in turn on 1 MB. Instructions for each call: {' and '.join(REPEATED)}, of 1,000 calls and of 5 to 100 in a round."
    yield "# suite\ttext\tcall\tours\twast\tratio\tratio by time\treason if one is below 1.5, or 1.2 for long lines"


def reason_of(kind, call, counted, timed):
    """Returns the reasons that apply to ratios, BELOW or BY_TIME, and the key among them: "" if there is none, `None` if no ratio is below the bound."""
    bound = BOUND_OF_LONG if kind in LONG else BOUND
    if min(counted, timed) >= bound:
        return BELOW, None
    keys = [(kind, call), *((call, kind) if call in REPEATED else (kind, call))]
    found = [(reasons, key) for reasons in ([BELOW] if counted < bound else [BY_TIME, BELOW]) for key in keys if key in reasons]
    return found[0] if found else (BELOW, "")


def with_reasons(table):
    """Returns the table with the reasons in its last column, and the faults: rows without a reason, and reasons without a row."""
    lines, faults, used = [], [], {id(BELOW): set(), id(BY_TIME): set()}
    for line in table:
        cells = line.split("\t")
        if not line.startswith("#"):
            reasons, key = reason_of(*cells[1:3], *map(float, cells[5:7]))
            used[id(reasons)].add(key)
            faults += [f"{cells[1]}, {cells[2]}: no reason"] if key == "" else []
            line = "\t".join([*cells[:7], reasons.get(key, "")]).rstrip("\t")
        lines.append(line)
    unused = [key for reasons in (BELOW, BY_TIME) for key in reasons if key not in used[id(reasons)]]
    return lines, faults + [f"{key}: a reason without a row" for key in unused]


def prepare(work):
    """Builds the program, writes the texts, and counts the instructions of each."""
    program = build(work, os.path.realpath(os.environ["WAST"]))
    write(work / "texts", SIZE)

    def count(sample):
        sample.with_suffix(".json").write_text(json.dumps(counts(program, sample)), encoding="utf-8")

    with concurrent.futures.ThreadPoolExecutor(JOBS) as pool:
        list(pool.map(count, write(work / "samples", SAMPLE)))


def measure(work, rounds):
    """Returns the lines of the table, after `prepare`."""
    program, lines = work / "target/release/benchmark_kinds", list(head(rounds))
    paths = [(work / f"samples/{name}.wat", work / f"texts/{name}.wat") for name in chosen()]
    with concurrent.futures.ThreadPoolExecutor(JOBS) as pool:
        for of_kind in pool.map(lambda of: rows(program, rounds, *of), paths):
            lines += of_kind
    if "KINDS" not in os.environ:
        return lines
    cell = {tuple(line.split("\t")[1:3]): line for line in lines if not line.startswith("#")}
    old, head_of_kinds = lines_of(DATA), f"# {' '.join(chosen())}: "
    kept = [line for line in old if line.startswith("#") and not line.startswith(head_of_kinds)]
    return [*kept, head_of_kinds + lines[0].removeprefix("# ").rstrip(",") + ".", *(cell.get(tuple(line.split("\t")[1:3]), line) for line in old if line[0] != "#")]


def lines_of(data):
    return data.read_text(encoding="utf-8").strip().split("\n")


def report(table):
    """Checks the reasons of the table, and exits with status 1 if there is a fault."""
    wanted, faults = with_reasons(table)
    faults += [f"{line}: the reason differs" for line, new in zip(table, wanted) if line != new]
    print("".join(f"{fault}\n" for fault in faults) + f"benchmark_kinds.py: {sum(line[0] != '#' for line in table)} ratios, {len(faults)} faults")
    sys.exit(bool(faults))


def main():
    options, words = [[word for word in sys.argv[1:] if word.startswith("--") == is_option] for is_option in (True, False)]
    if words:
        work, rounds = pathlib.Path(words[0]).resolve(), int(words[1]) if len(words) > 1 else 5
        work.mkdir(parents=True, exist_ok=True)
        if "--time" not in options:
            prepare(work)
        if "--prepare" in options:
            return
    if "--check" not in options:
        table = measure(work, rounds) if words else lines_of(DATA)
        DATA.write_text("\n".join(with_reasons(table)[0]) + "\n", encoding="utf-8")
    report(lines_of(DATA))


if __name__ == "__main__":
    main()
