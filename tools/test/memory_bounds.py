#!/usr/bin/env python3
"""Runs the program on long texts, and checks the bytes that it allocates, the bytes that it still holds at its end, its writes and its opened files;
then, for files of more than a megabyte, that a failed allocation is reported and changes no file.

usage: tools/test/memory_bounds.py PROGRAM

If BY_CARGO is set, PROGRAM was built with cargo, and Rust's library still holds the buffer of standard input at the end. Its first allocations, which
abort the program if one fails, are not failed here.

Each run has a bound on the bytes allocated for each byte of its text, and a bound on its writes. It must end within a time limit, and its output is
compared with output generated here or with that of an equivalent run. At the end no memory may be held. The counts are those of
tools/lib/fail_allocations.c, which is loaded before the C library.
"""
import itertools
import os
import pathlib
import re
import shutil
import subprocess
import sys
import tempfile

TOOLS = pathlib.Path(__file__).resolve().parents[1]
# Time limit of a run. A correct run is much faster; a run whose time is quadratic in the length of the text takes minutes.
SECONDS, TRIES = 20, 3
# The bytes that a run may allocate in addition to those in proportion to the text: for arguments, a report and one block of output.
BESIDE = 200_000
# The bytes that the runtime library of the program's compiler holds until the end.
KEPT = 9_000 if os.environ.get("BY_CARGO") else 0
# The number of bytes of standard input that are read at once.
PIECE = 65_536
# The number of bytes of a block of a report.
BLOCK = 4_096
WHITE = ("Whitespace", "LineComment", "BlockComment")
# The number of a run's allocations that are failed: half of them the first and last ones, the others between these at equal distances.
REFUSED = 32
NO_MEMORY = re.compile(rb"wat_tokens: ((long\.wat|made): )?out of memory\n")


def compiler():
    if shutil.which(os.environ.get("CC", "cc")):
        return os.environ.get("CC", "cc")
    page = subprocess.run(["rt", "doc"], capture_output=True, text=True, check=True).stdout.strip()
    return str(pathlib.Path(page).parent / "toolchain/bin/clang")


class Room:
    """A temporary directory with the counting library and the files of the runs."""

    def __init__(self, program, folder):
        self.program, self.folder = pathlib.Path(program).resolve(), pathlib.Path(folder)
        self.library = self.folder / "refuse.so"
        self.faults, self.runs = [], 0
        command = [compiler(), "-O1", "-fPIC", "-shared", "-nostdlib", "-o", self.library, TOOLS / "lib/fail_allocations.c"]
        subprocess.run(command, check=True)

    def file(self, name, text):
        (self.folder / name).write_bytes(text)

    def run(self, words, text=b"", **variables):
        """Runs the program on a text, and returns its status, output, report and counts. The variables are those of the library. As other processes can
        delay a run, one that does not end in time is repeated, at most `TRIES` times."""
        given = self.folder / "given"
        given.write_bytes(text)
        for _ in range(TRIES):
            try:
                return self.run_once(words, given, variables)
            except subprocess.TimeoutExpired:
                pass
        return None, b"", b"", {}

    def run_once(self, words, given, variables):
        """Runs the program on a file as standard input, so that reads are not short. Raises `TimeoutExpired` after `SECONDS`."""
        counts = self.folder / "counts"
        with open(counts, "wb") as counted, open(given, "rb") as source:
            os.set_inheritable(counted.fileno(), True)
            inside = {"LD_PRELOAD": str(self.library), "TELL": str(counted.fileno()), "PATH": os.environ["PATH"], **variables}
            done = subprocess.run(
                [self.program, *words], stdin=source, capture_output=True, cwd=self.folder, env=inside, timeout=SECONDS, pass_fds=[counted.fileno()]
            )
        numbers = {it: int(number) for it, number in re.findall(r"(\w+)=(\d+)", counts.read_text())}
        return done.returncode, done.stdout, done.stderr, numbers

    def check(self, name, words, text=b"", *, size=None, times, writes, opens=0, wanted=None, status=0):
        """Runs the program, records a fault if a bound, the status or the output is not as specified, and returns the output."""
        got, written, reported, counted = self.run(words, text)
        self.runs += 1
        size = len(text) if size is None else size
        say = lambda what: self.faults.append(f"{name}: {what}")
        if got is None:
            say(f"did not end within {SECONDS} s, {TRIES} times")
            return written
        if got != status or (status == 0 and reported):
            say(f"status {got}, {reported[:200]!r}")
        if wanted is not None and written != wanted:
            say(f"wrote {len(written)} bytes in place of {len(wanted)}, or others")
        if counted.get("asked", 0) > times * size + BESIDE or not counted.get("requests"):
            say(f"asked for {counted.get('asked')} bytes of memory for {size} of text, where {times} for each is the bound")
        if counted.get("held", 0) > KEPT:
            say(f"still holds {counted['held']} bytes at its end")
        if text and counted.get("reads", 0) > -(-len(text) // PIECE) + 1:
            say(f"{counted['reads']} reads of {len(text)} bytes, by pieces of {PIECE}")
        if counted.get("opens", 0) > opens:
            say(f"{counted['opens']} files opened, where {opens} is the bound")
        if counted.get("writes", 0) > writes:
            say(f"{counted['writes']} writes, where {writes} is the bound")
        share = counted.get("asked", 0) / max(size, 1)
        print(f"{name:34} {size:9} {counted.get('asked', 0):10} {share:6.2f} {times:6} {counted.get('held', 0):5} {counted.get('writes', 0):6} {writes:6}")
        return written


def lines(count):
    """Yields parts of a module's text, each with comments, names and strings."""
    for i in range(count):
        yield f'(func $f{i} (param $x i32) "a\\n{i}") ;; line {i}\n(; block\n;)\n'


def blanked(text):
    """Returns the text with its comments replaced by spaces, except for their line ends. No string of the text may contain a comment's delimiter."""
    return re.sub(rb";;[^\r\n]*|\(;.*?;\)", lambda it: re.sub(rb"[^\r\n]", b" ", it[0]), text, flags=re.DOTALL)


def tokens_that_count(listed):
    return b"".join(it for it in listed.splitlines(keepends=True) if it.split()[1].decode() not in WHITE)


def leb128(number):
    bytes_of = []
    while number >= 128:
        bytes_of.append(number % 128 + 128)
        number //= 128
    return bytes([*bytes_of, number])


def module(count):
    """Returns the text of a module with `count` types, and its bytes."""
    one = b"(type (func (param i32 i64) (result f32)))\n"
    content = leb128(count) + count * b"\x60\x02\x7f\x7e\x01\x7d"
    return b"(module\n" + count * one + b")", b"\0asm\x01\0\0\0\x01" + leb128(len(content)) + content


def lists(room):
    text = "".join(lines(15_700)).encode()
    listed = room.check("list", [], text, times=1.5, writes=170)
    room.check("list, by its name", ["list"], text, times=1.5, writes=170, wanted=listed)
    if sum(int(it.split()[0].split(b"..")[1]) - int(it.split(b"..")[0]) for it in listed.splitlines()) != len(text):
        room.faults.append("list: its tokens are not the text")
    room.check("sig", ["sig"], text, times=1.5, writes=80, wanted=tokens_that_count(listed))
    objects = room.check("list as JSON", ["--json", "list"], text, times=1.5, writes=600)
    if len(objects.splitlines()) != len(listed.splitlines()):
        room.faults.append("list as JSON: it has not a line for each token")
    room.check("sig as JSON", ["--json", "sig"], text, times=1.5, writes=300)
    room.check("blank", ["blank"], text, times=1.5, writes=24, wanted=blanked(text))
    room.check("list as JSON, 3 MB", ["--json", "list"], 3 * text, times=2, writes=1900)


def groups(room):
    """Checks texts with a registered and an unregistered annotation before each token, many registered names, and deeply nested groups."""
    text = 100_000 * b"(@a (b)) (@z ()) x\n"
    shown = room.check("sig, many annotations", ["sig", "a"], text, times=1.7, writes=380)
    if shown.count(b" Annotation\n") != 100_000 or shown.count(b" LParen\n") != 200_000 or shown.count(b" Keyword\n") != 200_000:
        room.faults.append("sig, many annotations: others are shown")
    names = [f"n{i}" for i in range(20_000)]
    text = b"".join(b'(@n%d) (@"n%d") (@"\\6e%d") x\n' % (i, i, i) for i in range(40_000))
    # Most of this is for the names; the program that cargo builds takes less for each than the one that Rattle builds.
    shown = room.check("sig, many names", ["sig", *names], text, times=8, writes=160)
    if shown.count(b" Annotation\n") != 60_000 or shown.count(b" LParen\n") != 60_000 or shown.count(b" Keyword\n") != 40_000:
        room.faults.append("sig, many names: others are shown")
    deep = 100_000 * b"(" + 100_000 * b")"
    room.check("sig, deep groups", ["sig"], deep, times=2, writes=100, wanted=tokens_that_count(room.run([], deep)[1]))


def plays(room):
    text = b"x (;;) (a) " + 104_000 * b"(@n b) yy "
    calls = ["take", "comment", "parens=1", "look", "reg=n", "look", "parens=2", "unreg=n", "take", "take", "comment", "parens=0", "look", "look", "unreg=n"]
    wanted = (
        b"0..1 Keyword\ncomment 2..6\ndone\n18..20 Keyword\ndone\n11..12 LParen\ndone\ndone\n18..20 Keyword\n28..30 Keyword\nabsent\n"
        b"not open 38\n38..40 Keyword\n38..40 Keyword\nabsent\n"
    )
    room.check("play, fifteen calls", ["play", *calls], text, times=1.5, writes=1, wanted=wanted)
    room.check("play, two thousand calls", ["play", *(2_000 * ["look"])], text, times=2, writes=1, wanted=2_000 * b"0..1 Keyword\n")


def types(room):
    text, wanted = module(24_000)
    room.check("types", ["types"], text, times=13, writes=1, wanted=wanted)


def layouts(room):
    text = "".join(lines(15_000)).encode().replace(b" (param", b"\n\n   (param")
    laid = room.check("fmt", ["fmt"], text, times=1.6, writes=26)
    if laid.split() == [] or b"".join(laid.split()) != b"".join(text.split()):
        room.faults.append("fmt: it keeps not all that is no white space")
    room.check("fmt of a layout", ["fmt"], laid, times=1.6, writes=26, wanted=laid)
    room.check("fmt --check of a layout", ["fmt", "--check"], laid, times=3, writes=0, wanted=b"")
    other = room.check("fmt --check", ["fmt", "--check"], text, times=3, writes=1, status=1)
    if other.count(b"\n") != 1:
        room.faults.append(f"fmt --check: it wrote {other[:80]!r}")


def files(room):
    """Checks commands on 5 different files, of which 2 are already formatted."""
    texts = {f"{i}.wat": "".join(lines(3_900 + i)).encode().replace(b" (param", b"\n\n   (param") for i in range(5)}
    for i in (1, 3):
        texts[f"{i}.wat"] = room.run(["fmt"], texts[f"{i}.wat"])[1]
    laid = {name: room.run(["fmt"], text)[1] for name, text in texts.items()}
    rest = [name for name in texts if texts[name] != laid[name]]
    if len(rest) != 3:
        room.faults.append("fmt, five files: not three of them are to be laid out")
    size = sum(map(len, texts.values()))

    def stay(what, wanted):
        for name in texts:
            if (room.folder / name).read_bytes() != wanted[name]:
                room.faults.append(f"{what}: the file {name} is not as it must be")

    for name, text in texts.items():
        room.file(name, text)
    room.check("fmt, five files", ["fmt", *texts], size=size, times=2.4, writes=30, opens=5, wanted=b"".join(laid.values()))
    stay("fmt, five files", texts)
    room.check("fmt, other order", ["fmt", *reversed(texts)], size=size, times=2.4, writes=30, opens=5, wanted=b"".join(reversed(laid.values())))
    named = b"".join(name.encode() + b"\n" for name in rest)
    room.check("fmt --check, five files", ["fmt", "--check", *texts], size=size, times=3.1, writes=5, opens=5, wanted=named, status=1)
    stay("fmt --check, five files", texts)
    lists = b"\n".join(f"==> {name} <==\n".encode() + room.run([], text)[1] for name, text in texts.items())
    room.check("list, five files", ["list", *texts], size=size, times=1.6, writes=220, opens=5, wanted=lists)
    room.check("fmt --write, five files", ["fmt", "--write", *texts], size=size, times=3.1, writes=0, opens=8, wanted=b"")
    stay("fmt --write, five files", laid)


def modules(room):
    """Compiles modules of more than a megabyte."""
    text, wanted = module(36_000)
    room.check("module, types", ["module"], text, times=35, writes=1, wanted=wanted)
    text = b"(module\n" + b"".join(b"(func $f%d (result i32) i32.const %d drop call $f%d)\n" % (i, i, i) for i in range(24_000)) + b")"
    compiled = room.check("module, functions", ["module"], text, times=24, writes=1)
    if not compiled.startswith(b"\0asm\x01\0\0\0"):
        room.faults.append("module, functions: it wrote no module")
    room.file("long.wat", text)
    room.check("module -o", ["module", "long.wat", "-o", "made"], size=len(text), times=24, writes=0, opens=2, wanted=b"")
    if (room.folder / "made").read_bytes() != compiled:
        room.faults.append("module -o: the file is not the module")


def long_files(room):
    """Formats files of more than a megabyte: --check leaves them, and --write replaces them by the whole text that `fmt` writes."""
    text = "".join(lines(40_000)).encode().replace(b" (param", b"\n\n   (param")
    room.file("long.wat", text)
    laid = room.check("fmt, 2 MB", ["fmt", "long.wat"], size=len(text), times=1.6, writes=60, opens=1)
    for option, left, writes, status in (("--check", text, 1, 1), ("--write", laid, 0, 0), ("--check", laid, 0, 0)):
        room.check(f"fmt {option}, 2 MB", ["fmt", option, "long.wat"], size=len(text), times=3.1, writes=writes, opens=3, status=status)
        if (room.folder / "long.wat").read_bytes() != left:
            room.faults.append(f"fmt {option}, 2 MB: the file is not as it must be")


def library_requests(room):
    """Returns the number of allocations of Rust's library before those of the program, as tools/test/fault_injection.sh finds it."""
    if not os.environ.get("BY_CARGO"):
        return 0
    requests = room.run(["--version"])[3]["requests"]
    return max((n for n in range(1, requests + 1) if room.run(["--version"], REFUSE_AT=str(n))[0] < 0), default=0) - 1


def refused(first, last):
    """Returns the numbers of the allocations to fail, of those from `first` to `last`."""
    near = {*range(first, first + REFUSED // 4), *range(last - REFUSED // 4 + 1, last + 1)}
    return sorted({*near, *range(first, last, -(-(last - first) // (REFUSED // 2)))} & {*range(first, last + 1)})


def refuse_each(room, words, first, text):
    """Fails allocations of a command on a file of this text: alone, and with all later ones. The command must report it, and change no file."""
    room.file("long.wat", text)
    before = {it.name for it in room.folder.iterdir()}
    requests = room.run(words)[3]["requests"]
    runs = list(itertools.product(refused(first, requests), ("REFUSE_AT", "REFUSE_FROM")))
    for n, variable in runs:
        room.file("long.wat", text)
        (room.folder / "made").unlink(missing_ok=True)
        status, output, report, _ = room.run(words, **{variable: str(n)})
        is_refused = status == 2 and NO_MEMORY.fullmatch(report) and not output
        left = {it.name for it in room.folder.iterdir()}
        if not is_refused or left != before or (room.folder / "long.wat").read_bytes() != text:
            room.faults.append(f"{' '.join(words)}, {variable}={n} of {requests}: status {status}, {report[:80]!r}, new files {left - before}")
    room.runs += len(runs)
    print(f"{' '.join(words)}: {len(text)} bytes, {requests} requests, {len(runs)} runs with refused ones")


def refusals(room):
    """Fails allocations of commands on a file of more than a megabyte."""
    (room.folder / "made").unlink(missing_ok=True)
    text, _ = module(28_000)
    library = library_requests(room)
    for words in (["module", "long.wat", "-o", "made"], ["fmt", "--write", "long.wat"], ["fmt", "--check", "long.wat"]):
        refuse_each(room, words, library + len(words) + 1 if library else 1, text)


def reports(room):
    """Reports an error at the start and at the end of a line of a megabyte, of which the error has a copy and the report a window."""
    commands = (["list"], ["--json", "list"], ["blank"], ["types"], ["module"], ["fmt"], ["fmt", "--check"])
    for name, text in (("letters", b"a"), ("tabs", b"\t"), ("NULs", b";;\0")):
        long, fault = text + 1_000_000 * text[-1:], "é".encode()
        for line, words in itertools.product((fault + long, b"\"" + long + b"\\q"), commands):
            room.file("line.wat", line)
            room.check(f"{name}, {' '.join(words)}", [*words, "line.wat"], size=len(line), times=3.5, writes=1, opens=1, status=1)
            reported, counted = room.run([*words, "line.wat"])[2:]
            if len(reported) > 2_000 or not reported.endswith(b"^\n") or counted["reports"] != 1:
                room.faults.append(f"{name}, {' '.join(words)}: a report of {len(reported)} bytes in {counted['reports']} writes")


def blocks(room):
    """Reports an error in a line of a megabyte of standard input, which is printed whole, and an error in an argument: each in blocks, not in parts."""
    line, shown = "é".encode() + 1_000_000 * b"\t", "é".encode() + 4_000_000 * b" "
    wanted = b"unexpected character '\\u{e9}'\n     --> <anon>:1:1\n      |\n    1 | " + shown + b"\n      | ^\n"
    message = b"wat_tokens: no such command or file: " + 3_000 * "␇".encode() + b"\nwat_tokens --help lists the commands and their options\n"
    for words, text, report, status in (([], line, wanted, 1), (["--json", 3_000 * "\a"], b"", message, 2)):
        got, _, reported, counted = room.run(words, text)
        room.runs += 1
        if (got, reported) != (status, report) or counted["reports"] > len(report) / (BLOCK - 4) + 1:
            room.faults.append(f"a report of {len(report)} bytes: status {got}, {reported[:80]!r}, {counted['reports']} writes")


def main():
    if len(sys.argv) != 2:
        print(__doc__.split("\n\n")[1], file=sys.stderr)
        return 2
    with tempfile.TemporaryDirectory() as folder:
        room = Room(sys.argv[1], folder)
        print(f"{'run':34} {'bytes':>9} {'asked':>10} {'each':>6} {'bound':>6} {'held':>5} {'writes':>6} {'bound':>6}")
        for part in (lists, groups, plays, types, layouts, files, modules, long_files, refusals, reports, blocks):
            part(room)
    for fault in room.faults:
        print(f"memory_bounds.py: {fault}")
    print(f"memory_bounds.py: {room.runs} runs, {len(room.faults)} faults")
    return 1 if room.faults else 0


if __name__ == "__main__":
    sys.exit(main())
