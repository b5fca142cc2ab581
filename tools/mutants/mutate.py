#!/usr/bin/env python3
"""Mutation testing of the code that is not proved: lists its mutants, runs the tests over each, and prints the mutation score and each survivor.

usage: mutate.py list [PREFIX..]
       mutate.py check
       mutate.py run [--sample N SEED] [--changed COMMIT] [--alone] [--least SCORE] [--jobs N] [--folder FOLDER] [--save FILE]
                     [--again FILE] [--accepted] [--own] [--longest SECONDS] [--node | --browser] [PREFIX..]
       mutate.py scores FILE..
       mutate.py self-test

A PREFIX is the start of a file's name, such as rust/wat-page; without one, the Rust packages. `run page` needs the page built and CHROMIUM, which
opens only pages whose mutant passes in node; `run include` needs a C compiler.

  list       prints file, line, function and change of each mutant, separated by tabs: those that sites.py generates, and those of
             mutants/seeded.tsv, which are hand-written
  check      checks that each row of mutants/survivors.tsv is a mutant of the sources as they are, and has a reason, and that each row of
             mutants/seeded.tsv applies to them
  run        runs the tests over each mutant; the status is 1 if one survives that mutants/survivors.tsv does not have, or with --least if the
             mutation score, the percentage of killed mutants without the accepted survivors, is lower
  scores     writes mutants/scores.tsv from the files of --save; a later one replaces the outcomes of an earlier one, and the rows of packages, or
             of the page, without any stay
  self-test  runs the tests of a package without one of them, and with it, and checks that `run` reports the mutants that only this one kills

  --sample N SEED   only N mutants; the seed chooses them
  --changed COMMIT  only mutants of functions with a line that differs from the commit
  --alone           also mutants that no switch can select, such as those of constants: each is built alone
  --save FILE       writes a line for each mutant: its outcome, the test that killed it, and its file, line, function and change
  --own             only the tests of the mutated packages, not those of packages that depend on them
  --longest SECONDS no test that takes longer on a processor: mutants that only such a test kills survive
  --again FILE      only mutants that were not killed in an earlier run, which saved this file; nothing is compiled again that did not change since
  --accepted        only accepted survivors
  --node            of the page, only the tests of parts, without packaged.mjs, agree.mjs and the browser
  --browser         of the page, only the browser, which then also opens pages whose mutant fails in node

All mutants of the Rust packages are compiled at once (schemata.py). A test is run over a mutant only if it calls the mutated function, up to the
first that fails: first those that are fast, or killed many other mutants of the file. A test whose process takes four times as long on a processor as
without a mutant, and 2 s, kills it. Mutants of proved code are those of tools/mutants/mutants.py, which the prover must kill.
"""
import argparse
import collections
import concurrent.futures
import dataclasses
import hashlib
import json
import math
import os
import pathlib
import re
import resource
import selectors
import shutil
import signal
import subprocess
import sys
import tempfile
import time

import schemata
import sites

ROOT = pathlib.Path(__file__).resolve().parents[2]
ACCEPTED = ROOT / "mutants/survivors.tsv"
SEEDED = ROOT / "mutants/seeded.tsv"
SCORES = ROOT / "mutants/scores.tsv"
# The change of a mutant of `SEEDED` begins with this.
BY_HAND = "by hand: "
# Files of the Rust packages without mutants: tests, generated code that is proved, and code for other targets.
SKIPPED = re.compile(r"generated/(?!wat_tokens(/|\.rs$))|(^|/)tests(/|\.rs$)|simd/(neon|wasm)\.rs$|wat-page/src/memory\.rs$")
# The proved functions of the program's sources have `ensures` in their comments, so sites.py skips them.
RUST = ("rust/wat-lex", "rust/wat-parser", "rust/wat-format", "rust/wat-modules", "rust/wat-c", "rust/wat-language-server", "rust/wat-page",
        "rust/wat-tokens")
PAGE = "page"
# Scripts that test the program, after all tests of cargo.
SCRIPTS = ("tools/test/fmt.sh", "tools/test/program.sh")
# Tests of parts of the page and of the npm package, which take a second.
PARTS = ("parts.mjs", "faked.mjs", "paged.mjs")
MEMORY = 6 << 30
KILLED, SURVIVED = ("failed", "timeout"), ("survived", "unreached")
# A test that takes fewer seconds is run together with others of its program.
SHORT = 0.3
FAILED = re.compile(rb"^test .*\.\.\. FAILED|^test result: FAILED", re.MULTILINE)


@dataclasses.dataclass
class Suite:
    """A test or a script: its command, its folder, the time that it takes without a mutant, by the clock and, if that is known, on a processor, and
    what it calls, if that is known: the numbers of functions, or the names of files."""

    name: str
    command: list
    folder: pathlib.Path
    seconds: float = 0.0
    processor: float | None = None
    called: frozenset | None = None
    is_limited: bool = True

    def cost(self):
        """Returns the time that a run takes, on a processor if that is known, since by the clock it depends on what else runs."""
        return self.seconds if self.processor is None else self.processor

    def limit(self):
        """Returns the time of a run by the clock. If the time on a processor is limited, this one only ends processes that wait."""
        return 8 * self.seconds + 5 if self.processor is None else 20 * self.seconds + 60

    def limit_process(self):
        """Limits a process that the suite starts."""
        if self.is_limited:
            resource.setrlimit(resource.RLIMIT_AS, (MEMORY, MEMORY))
            resource.setrlimit(resource.RLIMIT_CORE, (0, 0))
        if self.processor is not None:
            most = math.ceil(4 * self.processor + 2)
            resource.setrlimit(resource.RLIMIT_CPU, (most, most + 1))

    def reaches(self, mutant, first):
        """Returns `True` if the suite may call the mutated function, whose first mutant has this number."""
        is_own = self.name not in SCRIPTS or mutant.file.startswith("rust/wat-tokens")
        return is_own and (self.called is None or first in self.called or mutant.file in self.called)


# Mutants


def read(path):
    return (ROOT / path).read_text(encoding="utf-8")


def files_below(prefix):
    """Returns the files with mutants whose names begin with a prefix."""
    found = [*ROOT.glob("rust/*/src/**/*.rs"), ROOT / "include/wat.h", *ROOT.glob("page/*.js"), *ROOT.glob("page/wat-lex/*.js")]
    names = sorted(str(path.relative_to(ROOT)) for path in found)
    return [name for name in names if name.startswith(prefix) and not SKIPPED.search(name)]


def rows_of(path):
    """Returns the rows of a table, without its comment."""
    return [line.split("\t") for line in read(path.relative_to(ROOT)).splitlines() if line and not line.startswith("#")]


def seeded_in(name):
    """Returns the hand-written mutants of a file."""
    text = read(name)
    return [sites.seeded(name, text, function, BY_HAND + what, *texts) for file, function, what, *texts in rows_of(SEEDED) if file == name]


def mutants_of(name):
    make = {".rs": sites.rust_mutants, ".h": sites.header_mutants, ".js": sites.script_mutants}[pathlib.Path(name).suffix]
    return [*make(name, read(name)), *filter(None, seeded_in(name))]


def mutants_below(prefixes):
    return [it for prefix in prefixes for name in files_below(prefix) for it in mutants_of(name)]


def changed_lines(name, commit):
    """Returns the lines of a file that differ from a commit."""
    words = ["git", "diff", "--unified=0", commit, "--", name]
    diff = subprocess.run(words, cwd=ROOT, stdout=subprocess.PIPE, text=True, check=True).stdout
    hunks = re.findall(r"^@@ .* \+(\d+)(?:,(\d+))? @@", diff, re.MULTILINE)
    return {line for start, count in hunks for line in range(int(start), int(start) + int(count or 1))}


def is_changed(mutant, text, lines):
    start, end = mutant.body or (mutant.start, mutant.end)
    return any(line in lines for line in range(text.count("\n", 0, start) + 1, text.count("\n", 0, end) + 2))


def only_changed(mutants, commit):
    lines = {name: changed_lines(name, commit) for name in {it.file for it in mutants}}
    texts = {name: read(name) for name in lines}
    return [it for it in mutants if is_changed(it, texts[it.file], lines[it.file])]


def sampled(mutants, count, seed):
    """Returns `count` of the mutants: those whose keys hash lowest together with the seed."""
    return sorted(mutants, key=lambda it: rank(it, seed))[: int(count)]


def rank(mutant, seed=""):
    return hashlib.sha256(f"{seed}\t{mutant.key()}".encode()).digest()


def is_switched(mutant):
    return mutant.file.endswith(".rs") and not mutant.alone


def chosen(options):
    mutants = mutants_below(options.prefixes or RUST)
    if not options.alone:
        mutants = [it for it in mutants if not (it.alone and it.file.endswith(".rs"))]
    if options.changed:
        mutants = only_changed(mutants, options.changed)
    if options.accepted:
        known = accepted()
        mutants = [it for it in mutants if it.key() in known]
    before = saved(options.again)
    # Mutants that a switch selects are compiled again, so that what an earlier run built stays valid.
    mutants = [it for it in mutants if is_switched(it) or before.get(it.key()) not in (*KILLED, "uncompiled")]
    return sampled(mutants, *options.sample) if options.sample else mutants


# Accepted survivors


def accepted():
    """Returns the reason of each accepted survivor by its key: file, function and change."""
    return {"\t".join(row[:3]): "\t".join(row[3:]) for row in rows_of(ACCEPTED)}


def stale(reasons, keys):
    """Returns the faults of the accepted survivors, given the keys of all mutants."""
    faults = [f"no such mutant: {key}" for key in reasons if key not in keys]
    return faults + [f"no reason: {key}" for key, reason in reasons.items() if not reason.strip()]


def applies(row):
    """Returns `True` if a row of `SEEDED` is a mutant of its file."""
    return len(row) == 5 and (ROOT / row[0]).exists() and sites.seeded(row[0], read(row[0]), *row[1:]) is not None


def not_seeded():
    """Returns the faults of the hand-written mutants."""
    return [f"does not apply: {' '.join(row)}" for row in rows_of(SEEDED) if not applies(row)]


def check(_options):
    reasons = accepted()
    keys = {it.key() for it in mutants_below(("rust", "include", "page"))}
    faults = [*not_seeded(), *stale(reasons, keys)]
    print("\n".join([*faults, f"mutate.py: {len(keys)} mutants, {len(reasons)} accepted survivors, {len(faults)} faults"]))
    return 1 if faults else 0


def list_mutants(options):
    for it in mutants_below(options.prefixes or RUST):
        print(it.file, it.line, it.function, it.change, sep="\t")
    return 0


# Running


def ended(process, seconds):
    """Reads the output of a process up to its end, a failed test, or the end of its time. Returns `None` if it passed, otherwise a word."""
    output, deadline = b"", time.monotonic() + seconds
    with selectors.DefaultSelector() as selector:
        selector.register(process.stdout, selectors.EVENT_READ)
        while selector.select(max(0.0, deadline - time.monotonic())):
            piece = os.read(process.stdout.fileno(), 65536)
            output = output[-4096:] + piece
            if FAILED.search(output):
                return "failed"
            if not piece:
                break
    try:
        status = process.wait(max(0.1, deadline - time.monotonic()))
    except subprocess.TimeoutExpired:
        return "timeout"
    return "timeout" if status in (-signal.SIGXCPU, -signal.SIGKILL) else "failed" if status else None


def run_suite(suite, seconds, **variables):
    """Runs a suite in an empty temporary folder. Returns `None` if it passes, otherwise `failed` or `timeout`."""
    with tempfile.TemporaryDirectory(prefix="mutate-") as tree:
        # tools/test/fmt.sh runs the program as another user there.
        os.chmod(tree, 0o755)
        environment = os.environ | {"TMPDIR": tree, "RUST_TEST_THREADS": "1", "BY_CARGO": "1"} | variables
        quiet = {"stdin": subprocess.DEVNULL, "stderr": subprocess.DEVNULL, "stdout": subprocess.PIPE}
        options = quiet | {"start_new_session": True, "preexec_fn": suite.limit_process}
        process = subprocess.Popen(suite.command, cwd=suite.folder, env=environment, **options)
        try:
            return ended(process, seconds)
        finally:
            stop(process)
            subprocess.run(["chmod", "-R", "u+rwx", tree], check=False, stderr=subprocess.DEVNULL)


def stop(process):
    """Ends a process and those that it started."""
    try:
        os.killpg(process.pid, signal.SIGKILL)
    except ProcessLookupError:
        pass
    process.stdout.close()
    process.wait()


def first_failure(suites, **variables):
    """Runs suites in turn. Returns the outcome and the suite of the first that fails, or `survived`."""
    for suite in suites:
        outcome = run_suite(suite, suite.limit(), **variables)
        if outcome:
            return outcome, suite.name
    return "survived", ""


def processor_time():
    """Returns the seconds that the processes which ended have taken on processors."""
    used = resource.getrusage(resource.RUSAGE_CHILDREN)
    return used.ru_utime + used.ru_stime


def measure(suite, **variables):
    """Runs a suite without a mutant, and records its time. Returns `None` if it passes, otherwise `failed` or `timeout`."""
    suite.processor = None
    started, used = time.monotonic(), processor_time()
    outcome = run_suite(suite, 1800, **variables)
    suite.seconds, suite.processor = time.monotonic() - started, processor_time() - used
    return outcome


def must_pass(suite):
    outcome = measure(suite)
    if outcome:
        raise schemata.Broken(f"{suite.name} fails without a mutant: {outcome}")
    say(f"{suite.name}: {suite.seconds:.1f} s")


def trace(suite, folder):
    """Measures a suite, and records the functions that it calls, unless an earlier run did so with the same programs."""
    traces = folder / "traces" / re.sub(r"\W", "_", suite.name)
    known = traces.with_suffix(".json")
    built = [path.stat().st_mtime_ns for path in map(pathlib.Path, suite.command) if path.is_file()]
    noted = json.loads(known.read_text()) if known.exists() else {}
    if noted.get("built") != built:
        noted = {"built": built, "called": called_by(suite, traces), "seconds": suite.seconds, "processor": suite.processor}
        known.write_text(json.dumps(noted))
    suite.seconds, suite.processor = noted["seconds"], noted["processor"]
    suite.called = None if noted["called"] is None else frozenset(noted["called"])


def called_by(suite, traces):
    """Measures a suite, and returns the functions that it calls. They are unknown if it fails only while they are recorded, which allocates, or if one
    of its processes can not record them."""
    shutil.rmtree(traces, ignore_errors=True)
    traces.mkdir(parents=True)
    if measure(suite, WAT_MUTANT_TRACE=str(traces)):
        must_pass(suite)
        return None
    if list(traces.glob("*.unknown")):
        say(f"{suite.name}: not known which functions it calls")
        return None
    called = sorted({int(line) for path in traces.iterdir() for line in path.read_text().split()})
    if suite.seconds >= SHORT:
        say(f"{suite.name}: {suite.seconds:.1f} s, {len(called)} mutated functions")
    return called


def say(text):
    print(f"mutate.py: {text}", file=sys.stderr, flush=True)


def each(jobs, call, items):
    """Calls a function for each item, several at a time, and reports progress. Yields the results as they come, so that each is saved at once."""
    with concurrent.futures.ThreadPoolExecutor(jobs) as pool:
        calls = [pool.submit(call, it) for it in items]
        for number, done in enumerate(concurrent.futures.as_completed(calls), 1):
            yield done.result()
            if number % 100 == 0:
                say(f"{number} of {len(items)}")


# Rust


def options_of(names):
    return ["--all-features", *(word for name in sorted(names) for word in ("--package", name))]


def packages_of(mutants):
    return {it.file.split("/")[1] for it in mutants}


def dependents(names):
    """Returns the packages, and all that depend on them: those whose tests may call their code."""
    needs = {path.parent.name: set(re.findall(r"^(wat-\w+) = ", path.read_text(), re.MULTILINE)) for path in ROOT.glob("rust/wat-*/Cargo.toml")}
    while more := {name for name, below in needs.items() if below & names} - names:
        names = names | more
    return names


def suites_of(folder, options):
    built = schemata.build(folder, options)
    programs = [Suite(name, [str(path)], package) for name, (path, package) in sorted(built.items()) if not name.startswith("mutant")]
    suites = [test for it in programs for test in tests_of(it)]
    program = folder / "target/debug/wat_tokens"
    if any(it.name.startswith("wat-tokens") for it in suites):
        suites += [Suite(script, [str(ROOT / script), str(program)], ROOT) for script in SCRIPTS]
    return suites


def tests_of(program):
    """Returns the tests of a program of cargo."""
    words = [*program.command, "--list", "--format", "terse"]
    listed = subprocess.run(words, cwd=program.folder, stdout=subprocess.PIPE, text=True, check=True).stdout
    names = re.findall(r"^(.+): test$", listed, re.MULTILINE)
    return [dataclasses.replace(program, name=f"{program.name} {it}", command=[*program.command, "--exact", it]) for it in names]


def joined(suites):
    """Joins the short tests of each program to one run."""
    short, runs = collections.defaultdict(list), []
    for it in suites:
        if it.cost() < SHORT and it.name not in SCRIPTS:
            short[it.command[0]].append(it)
        else:
            runs.append(it)
    for tests in short.values():
        command = [*tests[0].command[:2], *(it.command[2] for it in tests)]
        times = {"seconds": sum(it.seconds for it in tests), "processor": sum(it.processor for it in tests)}
        runs.append(dataclasses.replace(tests[0], name=tests[0].name.split()[0], command=command, **times))
    return runs


def switched(mutants, folder, options):
    """Runs the tests over the mutants of Rust that a switch selects. Yields each with its outcome and the suite that killed it."""
    numbers = dict(enumerate(sorted(mutants, key=lambda it: (it.file, it.body)), 1))
    texts = {name: read(name) for name in {it.file for it in mutants}}
    schemata.copy(folder, texts)
    schemata.add_switch(folder, len(numbers))
    files = schemata.files_of(folder, texts, {number: (it, it.body) for number, it in numbers.items()})
    own = packages_of(mutants)
    before = saved(options.again)
    broken = {number for number, it in numbers.items() if before.get(it.key()) == "uncompiled"}
    dropped = schemata.compile_all(folder, files, options_of(own), say, broken)
    yield from ((numbers[number], "uncompiled", "") for number in sorted(dropped))
    suites = suites_of(folder, options_of(own if options.own else dependents(own)))
    for suite in suites:
        trace(suite, folder)
    say(f"{len(suites)} tests, which take {sum(it.seconds for it in suites):.0f} s, {sum(it.cost() for it in suites):.0f} s on a processor")
    suites = [it for it in suites if it.cost() <= options.longest]
    firsts = {}
    for number, it in numbers.items():
        firsts.setdefault((it.file, it.body), number)

    kills = collections.Counter()

    def attempt(number):
        mutant = numbers[number]
        reached = [it for it in suites if it.reaches(mutant, firsts[mutant.file, mutant.body])]
        runs = sorted(joined(reached), key=lambda it: it.cost() / (kills[mutant.file, it.name] + 1))
        outcome, killer = first_failure(runs, WAT_MUTANT=str(number))
        kills[mutant.file, killer] += 1
        return mutant, outcome if reached else "unreached", killer

    # In this order an interrupted run is a sample, except that accepted survivors, over which all tests run, are last.
    known = accepted()
    left = [number for number, it in numbers.items() if number not in dropped and before.get(it.key()) not in KILLED]
    order = sorted(left, key=lambda it: (numbers[it].key() in known, rank(numbers[it])))
    yield from each(options.jobs, attempt, order)


def suite_alone(package, folder):
    """Returns the tests of a package, with the time that they take without a mutant."""
    words = ["--offline", *options_of([package])]
    environment = schemata.environment(folder, WAT_MUTANT="0")
    suite = Suite("cargo test", ["cargo", "test", "--quiet", "--lib", "--tests", *words], folder / "rust")
    subprocess.run(["cargo", "test", "--quiet", "--no-run", *words], cwd=suite.folder, env=environment, check=True)
    outcome = measure(suite, **environment)
    if outcome:
        raise schemata.Broken(f"the tests of {package} fail without a mutant: {outcome}")
    return suite


def built_alone(mutant, folder, suite):
    """Runs the tests of a mutant's package over this mutant alone."""
    path = folder / mutant.file
    text = read(mutant.file)
    environment = schemata.environment(folder, WAT_MUTANT="0")
    path.write_text(text[: mutant.start] + mutant.new + text[mutant.end :])
    try:
        words = ["cargo", "test", "--quiet", "--no-run", *suite.command[-4:]]
        if subprocess.run(words, cwd=suite.folder, env=environment, capture_output=True, check=False).returncode:
            return mutant, "uncompiled", ""
        return (mutant, *first_failure([suite], **environment))
    finally:
        path.write_text(text)


def of_rust(mutants, folder, options):
    together, alone = [it for it in mutants if not it.alone], [it for it in mutants if it.alone]
    if together:
        yield from switched(together, folder / "switched", options)
    if alone:
        schemata.copy(folder / "alone")
        suites = {name: suite_alone(name, folder / "alone") for name in sorted(packages_of(alone))}
        yield from each(1, lambda it: built_alone(it, folder / "alone", suites[it.file.split("/")[1]]), alone)


# C header and JavaScript


def tree_for(mutant, folder, index):
    """Makes a tree like the repository, in which the mutant's folder is a copy with the mutant, and most others are links."""
    tree = folder / f"tree-{index}"
    shutil.rmtree(tree, ignore_errors=True)
    tree.mkdir(parents=True)
    top = mutant.file.split("/")[0]
    copied = {top, "tools"}
    for path in ROOT.iterdir():
        if path.name in copied:
            shutil.copytree(path, tree / path.name, symlinks=True)
        elif path.name != ".git":
            (tree / path.name).symlink_to(path)
    text = read(mutant.file)
    changed = text[: mutant.start] + mutant.new + text[mutant.end :]
    (tree / mutant.file).write_text(changed)
    served = tree / "page/out" / pathlib.Path(mutant.file).relative_to("page") if top == "page" else None
    if served and served.exists():
        served.write_text(changed)
    return tree


C_PROGRAM = '"${CC:-cc}" -std=c99 -Werror=incompatible-pointer-types -Iinclude -o %(name)s.out tools/test/c/%(name)s.c %(library)s -lpthread -ldl -lm && ./%(name)s.out %(words)s'


def header_suites(tree, library):
    """Returns the commands that test the header in a tree."""
    texts = "$(find crates/wat_tokens/agreement -type f ! -name '*.stdout' ! -name '*.args' | sort)"
    programs = [("answers", ""), ("tokens", ""), ("readers", f"0 {texts}")]
    yield Suite("compare_declarations.py", ["tools/lint/compare_declarations.py"], tree)
    yield Suite("check_version.py", ["tools/lint/check_version.py"], tree)
    for name, words in programs:
        yield Suite(f"{name}.c", ["sh", "-c", C_PROGRAM % {"name": name, "library": library, "words": words}], tree)
    yield Suite("list.c", ["sh", "-c", LISTS % (C_PROGRAM % {"name": "list", "library": library, "words": "< /dev/null"})], tree)


LISTS = """%s > /dev/null || exit 1
for text in $(find crates/wat_tokens/agreement -name '*.stdout'); do
    text=${text%%.stdout}
    [ -e "$text.args" ] || ./list.out < "$text" 2> /dev/null | cmp -s - "$text.stdout" || exit 1
done"""


def imported(tree, name):
    """Returns the names of the sources that a JavaScript file of the page imports, and those that these import. The page's copy of a source in
    page/out has the name of the source."""
    names, awaited = set(), [name]
    while awaited:
        name = awaited.pop()
        if name not in names and (tree / name).exists():
            names.add(name)
            found = re.findall(r"""(?:from|import|import\()\s*['"](\.{1,2}/[\w./-]+)['"]""", (tree / name).read_text())
            awaited += [os.path.normpath(os.path.join(os.path.dirname(name), it)).replace("page/out/", "page/") for it in found]
    return frozenset(names)


def script_suites(tree, program):
    """Returns the commands that test all of the page in a tree, the fastest first."""
    for name in ("packaged.mjs", "agree.mjs"):
        yield Suite(name, ["node", f"page/{name}", str(program)], tree, called=imported(tree, f"page/{name}"), is_limited=False)
    opened = frozenset().union(*(imported(tree, f"page/{name}.js") for name in ("page", "worker", "runner")))
    yield Suite("browser.mjs", ["env", "QUICK=1", "node", "page/browser.mjs", str(program)], tree, called=opened, is_limited=False)


def in_node(mutants, program, jobs):
    """Runs the tests of parts over mutants, in one process (run_scripts.mjs). Yields each with its outcome and the test."""

    def units(text):
        return len(text.encode("utf-16-le")) // 2

    loaded = {name: imported(ROOT, f"page/{name}") for name in PARTS}
    texts = {name: read(name) for name in {it.file for it in mutants}}
    lines = [
        json.dumps({
            "file": it.file, "function": it.function, "text": it.new, "tests": [name for name in PARTS if it.file in loaded[name]],
            "start": units(texts[it.file][: it.start]), "end": units(texts[it.file][: it.end]),
        })
        for it in mutants
    ]  # fmt: skip
    words = ["node", "--experimental-vm-modules", "--no-warnings", "tools/mutants/run_scripts.mjs", str(program), str(jobs)]
    with tempfile.TemporaryFile("w+") as given:
        given.write("\n".join(lines))
        given.seek(0)
        with subprocess.Popen(words, cwd=ROOT, stdin=given, stdout=subprocess.PIPE, text=True) as process:
            left = set(range(len(mutants)))
            for line in process.stdout:
                index, outcome, killer = line.rstrip("\n").split("\t")
                left.remove(int(index))
                yield mutants[int(index)], outcome, killer
    if process.returncode:
        raise schemata.Broken(f"run_scripts.mjs ended with status {process.returncode}")
    # What no test of parts imports.
    yield from ((mutants[i], "survived", "") for i in sorted(left))


def in_trees(mutants, folder, options, compiler, suites):
    """Runs the suites over each mutant that the compiler accepts, in a tree of its own."""
    original = list(suites(tree_for(dataclasses.replace(mutants[0], start=0, end=0, new=""), folder, "original")))
    for suite in original:
        must_pass(suite)
    seconds = {it.name: it.seconds for it in original}

    def attempt(item):
        index, mutant = item
        tree = tree_for(mutant, folder, index)
        try:
            if subprocess.run(["sh", "-c", compiler, "sh", mutant.file], cwd=tree, capture_output=True, check=False).returncode:
                return mutant, "uncompiled", ""
            timed = [dataclasses.replace(it, seconds=seconds[it.name]) for it in suites(tree) if it.reaches(mutant, None)]
            return (mutant, *first_failure(timed))
        finally:
            shutil.rmtree(tree)

    yield from each(options.jobs, attempt, list(enumerate(mutants)))


def cargo_build(folder, *words):
    environment = schemata.environment(folder)
    subprocess.run(["cargo", "build", "--quiet", "--offline", *words], cwd=ROOT / "rust", env=environment, check=True)
    return folder / "target/debug"


def of_header(mutants, folder, options):
    library = cargo_build(folder, "--package", "wat-c") / "libwat_c.a"
    compiler = '"${CC:-cc}" -std=c99 -w -Iinclude -fsyntax-only tools/test/c/tokens.c'
    yield from in_trees(mutants, folder, options, compiler, lambda tree: header_suites(tree, library))


def of_scripts(mutants, folder, options):
    program = cargo_build(folder, "--package", "wat-tokens") / "wat_tokens"
    # In this order an interrupted run is a sample.
    mutants = sorted(mutants, key=rank)
    survivors = mutants if options.browser else []
    for mutant, outcome, killer in [] if options.browser else in_node(mutants, program, options.jobs):
        if outcome == "survived" and not options.node:
            survivors.append(mutant)
        else:
            yield mutant, outcome, killer
    compiler = 'cp "$1" checked.mjs && node --check checked.mjs'

    def suites(tree):
        return [it for it in script_suites(tree, program) if it.name == "browser.mjs" or not options.browser]

    if survivors:
        yield from in_trees(survivors, folder, options, compiler, suites)


# Results


SCORES_HEAD = """# Written by `tools/mutants/mutate.py scores`: package or file, mutants that were compiled and tried, killed ones, accepted survivors, other
# survivors, mutants that were not tried, and the mutation score: the percentage of killed mutants of those tried, without accepted survivors. The
# row `all` is of the Rust packages."""


def saved(path):
    """Returns the outcomes of an earlier run by the keys of its mutants: none without a file."""
    if path is None:
        return {}
    rows = [line.split("\t") for line in pathlib.Path(path).read_text(encoding="utf-8").splitlines()]
    return {"\t".join((file, function, change)): outcome for outcome, _, file, _, function, change in rows}


def counted(outcomes_of, reasons):
    """Returns the number of mutants of each outcome by scope, given the outcomes by mutant. A survivor is `accepted` or `open` too."""
    counts = collections.defaultdict(collections.Counter)
    for mutant, outcome in outcomes_of:
        survived = outcome in SURVIVED
        kinds = [outcome, *(["accepted" if mutant.key() in reasons else "open"] if survived else [])]
        for scope in mutant.scopes():
            counts[scope].update(kinds)
    return dict(sorted(counts.items()))


def totals(count):
    """Returns the numbers of a row: compiled, killed, accepted and surviving mutants, and the mutation score."""
    killed, lived = sum(count[it] for it in KILLED), count["open"]
    return killed + lived + count["accepted"], killed, count["accepted"], lived, 100 * killed / (killed + lived) if killed + lived else 100.0


def summary(results, reasons):
    """Prints the score by module. Returns the survivors that are not accepted, and the score."""
    counts = counted([(mutant, outcome) for mutant, outcome, _ in results], reasons)
    survivors = [(it, outcome) for it, outcome, _ in results if outcome in SURVIVED and it.key() not in reasons]
    for mutant, outcome in survivors:
        print(f"{outcome}\t{mutant.file}:{mutant.line}\t{mutant.function}\t{mutant.change}")
    print(f"\n{'scope':56} {'compiled':>8} {'killed':>6} {'timeout':>7} {'accepted':>8} {'survived':>8} {'score':>7}")
    for scope, count in counts.items():
        compiled, killed, known, lived, score = totals(count)
        print(f"{scope:56} {compiled:8} {killed:6} {count['timeout']:7} {known:8} {lived:8} {score:6.1f}%")
    return survivors, totals(counts["all"])[-1] if counts else 100.0


def row_of(scope, count):
    """Returns a row of the table of scores."""
    tried, killed, known, lived, score = totals(count)
    return scope, tried, killed, known, lived, count["untried"], f"{score:.1f}" if tried else "-"


def package_of(name):
    """Returns the package of a file or of a scope: `page`, or a folder of `rust`."""
    return PAGE if name.startswith(PAGE) else "/".join(name.split("/")[:2])


def rows_before(names):
    """Returns the counts of packages, and of their files, in the table of scores as it is."""
    kinds = ("failed", "accepted", "open", "untried")
    counts = {row[0]: collections.Counter(dict(zip(kinds, map(int, row[2:6]), strict=True))) for row in rows_of(SCORES)}
    return {scope: count for scope, count in counts.items() if package_of(scope) in names}


def scores(options):
    """Writes the table of scores from the files of earlier runs. The rows of packages of which these files have no outcome stay."""
    before = {key: outcome for path in options.prefixes for key, outcome in saved(path).items()}
    run = {package_of(key) for key in before}
    mutants = [it for it in mutants_below((*RUST, PAGE)) if package_of(it.file) in run]
    counts = counted([(it, before.get(it.key(), "untried")) for it in mutants], accepted())
    counts |= rows_before({*RUST, PAGE} - run)
    counts["all"] = sum((counts[name] for name in RUST if name in counts), collections.Counter())
    rows = [row_of(scope, count) for scope, count in sorted(counts.items())]
    SCORES.write_text("\n".join([SCORES_HEAD, *("\t".join(map(str, row)) for row in rows), ""]), encoding="utf-8")
    print(f"mutate.py: {len(mutants)} mutants, {sum(it.key() not in before for it in mutants)} without an outcome")
    return 0


def outcomes(mutants, folder, options):
    """Runs the tests over mutants. Yields each with its outcome, and with the suite that killed it."""
    for suffix, runner in ((".rs", of_rust), (".h", of_header), (".js", of_scripts)):
        wanted = [it for it in mutants if it.file.endswith(suffix)]
        if wanted:
            yield from runner(wanted, folder, options)


def recorded(results, path):
    """Yields the results, and writes a line for each as it comes."""
    with open(path or os.devnull, "w", encoding="utf-8") as file:
        for mutant, outcome, suite in results:
            print(outcome, suite, mutant.file, mutant.line, mutant.function, mutant.change, sep="\t", file=file, flush=True)
            yield mutant, outcome, suite


def run(options):
    mutants = chosen(options)
    folder = pathlib.Path(options.folder or ROOT / "rust/target/mutation").resolve()
    folder.mkdir(parents=True, exist_ok=True)
    started = time.monotonic()
    results = list(recorded(outcomes(mutants, folder, options), options.save))
    survivors, score = summary(results, accepted())
    left = sum(it.alone and it.file.endswith(".rs") for it in mutants_below(options.prefixes or RUST)) if not options.alone else 0
    broken = sum(outcome == "uncompiled" for _, outcome, _ in results)
    seconds = time.monotonic() - started
    print(f"mutate.py: {len(results) - broken} mutants in {seconds:.0f} s, {len(survivors)} survive that are not accepted")
    print(f"mutate.py: {broken} do not compile; {left} left out, as no switch selects them")
    return 1 if score < options.least else 0


# Self-test


def outcomes_without(test, folder, options):
    """Returns the outcomes of the mutants of wat-page by their keys. The test of this name is ignored."""
    package = "rust/wat-page"
    mutants = [it for it in mutants_below([package]) if not it.alone]
    original = schemata.copy

    def copy(to, mutated):
        original(to, mutated)
        path = to / package / "src/tests.rs"
        path.write_text(path.read_text().replace(f"#[test]\nfn {test}()", f"#[test]\n#[ignore]\nfn {test}()"))

    schemata.copy = copy
    try:
        return {it.key(): outcome for it, outcome, _ in switched(mutants, folder, options)}
    finally:
        schemata.copy = original


def self_test(options):
    """Shows that a hole in the tests is reported: without `whole_texts`, mutants of wat-page survive that are killed with it."""
    folder = pathlib.Path(options.folder or ROOT / "rust/target/mutation").resolve() / "self-test"
    folder.mkdir(parents=True, exist_ok=True)
    every = outcomes_without("no_such_test", folder, options)
    fewer = outcomes_without("whole_texts", folder, options)
    killed = {key for key, outcome in every.items() if outcome in ("failed", "timeout")}
    lost = {key for key in killed if fewer[key] in ("survived", "unreached")}
    faults = [] if killed and lost == killed else [f"{len(killed)} killed with the test, {len(lost)} of them reported without it"]
    row = "rust/wat-page/src/whole.rs\tcopied\tno such change"
    faults += [] if len(stale({row: "a reason", next(iter(every)): ""}, set(every))) == 2 else ["a stale row is not reported"]
    print("\n".join([*faults, f"mutate.py: {len(lost)} mutants survive without the test that kills them, {len(faults)} faults"]))
    return 1 if faults else 0


def main():
    parser = argparse.ArgumentParser(description=__doc__, formatter_class=argparse.RawDescriptionHelpFormatter)
    commands = parser.add_subparsers(required=True)
    for name, command in (("list", list_mutants), ("check", check), ("run", run), ("scores", scores), ("self-test", self_test)):
        of = commands.add_parser(name)
        of.set_defaults(command=command)
        of.add_argument("--folder")
        of.add_argument("--jobs", type=int, default=os.cpu_count())
        of.add_argument("prefixes", nargs="*")
        of.add_argument("--own", action="store_true")
        of.add_argument("--longest", type=float, default=math.inf, metavar="SECONDS")
        of.add_argument("--again", metavar="FILE")
        if name == "run":
            of.add_argument("--sample", nargs=2, metavar=("N", "SEED"))
            of.add_argument("--changed", metavar="COMMIT")
            of.add_argument("--alone", action="store_true")
            of.add_argument("--least", type=float, default=100.0, metavar="SCORE")
            of.add_argument("--save", metavar="FILE")
            of.add_argument("--accepted", action="store_true")
            which = of.add_mutually_exclusive_group()
            which.add_argument("--node", action="store_true")
            which.add_argument("--browser", action="store_true")
    options = parser.parse_args()
    try:
        return options.command(options)
    except schemata.Broken as fault:
        say(fault)
        return 1


if __name__ == "__main__":
    sys.exit(main())
