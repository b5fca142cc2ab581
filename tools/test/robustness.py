#!/usr/bin/env python3
"""Runs the program in hostile environments: little memory, closed and broken streams, devices, links, odd names of files, limits of the system, a
process that is killed, and failed system calls, at each of its calls. Each run must end within a time limit with a status of docs/cli.md, a file that
`fmt --write` replaces must be whole, and a report must have no control characters.

usage: tools/test/robustness.py PROGRAM

If BY_CARGO is set, PROGRAM was built with cargo. Without strace, the runs with killed processes and failed calls are left out.
"""
import collections
import itertools
import os
import pathlib
import re
import resource
import shutil
import signal
import socket
import stat
import subprocess
import sys
import tempfile
import threading
import time

# Time limits of a run: with a small text, and with a long one.
SECONDS, LONG_SECONDS = 20, 60
MEBIBYTE = 1 << 20
# The capacity of a block in which a report is written.
BLOCK = 4096
COMMANDS = [words.split() for words in ("list", "--json list", "blank", "types", "module", "fmt", "fmt --check", "fmt --diff")]
FILTERS = [words.split() for words in ("list", "--json list", "sig a", "play look", "blank", "types", "module", "fmt", "fmt --check")]
TEXT = b"(module\n( type ( func ) ) )"
FORMATTED = b"(module\n  (type (func)))\n"
FAULTY = b'(module\n "no \\q")'
CONTROL = re.compile("[\0-\x09\x0b-\x1f\x7f-\x9f]")
Ended = collections.namedtuple("Ended", "status output report seconds")


class Suite:
    """The program, a temporary directory, and the faults of the runs."""

    def __init__(self, program, folder):
        self.program, self.folder, self.faults, self.runs = str(pathlib.Path(program).resolve()), pathlib.Path(folder), [], 0

    def file(self, name, content=TEXT):
        path = self.folder / name
        path.write_bytes(content)
        return path

    def run(self, words, *, before=(), seconds=SECONDS, stdin=subprocess.DEVNULL, stdout=None, stderr=None, **options):
        """Runs the program, or the command `before` with it, and returns its status, what it wrote, and its processor time."""
        self.runs += 1
        out, errors = open(self.folder.parent / "out", "w+b"), open(self.folder.parent / "err", "w+b")
        with out, errors:
            streams = {"stdin": stdin, "stdout": out if stdout is None else stdout, "stderr": errors if stderr is None else stderr}
            process = subprocess.Popen([*before, self.program, *words], cwd=self.folder, **streams, **options)
            watch = threading.Timer(seconds, process.kill)
            watch.start()
            begun = time.monotonic()
            _, status, usage = os.wait4(process.pid, 0)
            took = time.monotonic() - begun
            watch.cancel()
            process.returncode = os.waitstatus_to_exitcode(status)
            out.seek(0), errors.seek(0)
            written = out.read(), errors.read()
        if took >= seconds:
            self.faults.append(f"{words}: did not end within {seconds} s")
        return Ended(process.returncode, *written, usage.ru_utime + usage.ru_stime)

    def check(self, what, is_right, got):
        if not is_right:
            self.faults.append(f"{what}: status {got.status}, output {got.output[:80]!r}, report {got.report[:200]!r}")

    def expect(self, what, statuses, words, **options):
        """Runs the program, and checks its status and that its report has no control characters."""
        got = self.run(words, **options)
        shown = got.report.decode(errors="surrogateescape")
        self.check(what, got.status in statuses and not CONTROL.search(shown), got)
        return got

    def is_whole(self, what, path, got, contents=(TEXT, FORMATTED)):
        """Checks that a file has one of these contents."""
        if not path.is_file() or path.read_bytes() not in contents:
            self.faults.append(f"{what}: {path.name} is not whole: status {got.status}, report {got.report[:200]!r}")


def limit(name, most):
    """Returns a function that sets a limit of the new process."""
    return lambda: resource.setrlimit(getattr(resource, name), (most, most))


def memory(suite):
    """Runs each command with less and less memory. It writes its whole output, or reports that it is out of memory."""
    path = suite.file("long.wat", b"(module\n" + b"(type (func (param i32) (result i32)))\n" * 30_000 + b")")
    starts = lambda size: suite.run(["--version"], preexec_fn=limit("RLIMIT_AS", size)).status == 0
    least = next(filter(starts, range(MEBIBYTE, 512 * MEBIBYTE, MEBIBYTE)))
    for words in COMMANDS:
        whole = suite.run([*words, path.name])
        for more in (1, 2, 3, 4, 6, 8, 12, 16, 32):
            size = least + more * MEBIBYTE
            got = suite.expect(f"{words} in {more} MiB", (0, 1, 2), [*words, path.name], preexec_fn=limit("RLIMIT_AS", size))
            is_refused = got.status == 2 and got.report == b"wat_tokens: long.wat: out of memory\n"
            suite.check(f"{words} in {more} MiB", is_refused or got[:3] == whole[:3], got)


def closed_streams(suite):
    """Closes each set of standard streams. A file that is opened may then get the number of a stream, and no report may be written to it."""
    for closed in itertools.chain.from_iterable(itertools.combinations(range(3), count) for count in (1, 2, 3)):
        for words in [*COMMANDS, ["fmt", "--write"]]:
            for content in (TEXT, FAULTY):
                path = suite.file("closed.wat", content)
                close = lambda closed=closed: [os.close(stream) for stream in closed]
                got = suite.expect(f"{words}, streams {closed} closed", (0, 1, 2), [*words, path.name], preexec_fn=close)
                suite.is_whole(f"{words}, streams {closed} closed", path, got, (content, FORMATTED))


def broken_pipe():
    """Returns a pipe to write to that nobody reads."""
    reader, writer = os.pipe()
    os.close(reader)
    return open(writer, "wb")


def broken_pipes(suite):
    """Writes to pipes that nobody reads. No signal may end the program, and output of a file to such a pipe is not an error."""
    path, faulty = suite.file("piped.wat"), suite.file("faulty.wat", FAULTY)
    with broken_pipe() as pipe:
        for words in COMMANDS:
            got = suite.expect(f"{words} to a broken pipe", (0,), [*words, path.name], stdout=pipe)
            suite.check(f"{words} to a broken pipe", got.report == b"", got)
            suite.expect(f"{words}, its report to a broken pipe", (1,), [*words, faulty.name], stderr=pipe)
        for words in FILTERS:
            with path.open("rb") as text:
                suite.expect(f"{words} as a filter to a broken pipe", (0, 2) if words[0] == "fmt" else (2,), words, stdin=text, stdout=pipe)


def devices(suite):
    """Reads and writes devices, folders and links that lead nowhere."""
    path = suite.file("text.wat")
    (suite.folder / "loop.wat").symlink_to("loop.wat")
    (suite.folder / "dangling.wat").symlink_to("none")
    folder = suite.folder / "folder"
    folder.mkdir()
    os.mkfifo(folder / "fifo.wat")
    (folder / "loop.wat").symlink_to("loop.wat")
    socket.socket(socket.AF_UNIX).bind(str(folder / "socket.wat"))
    for words in COMMANDS:
        suite.expect(f"{words} /dev/null", (0, 1), [*words, "/dev/null"])
        suite.expect(f"{words} folder", (0, 1, 2) if words[0] == "fmt" else (2,), [*words, "folder/"])
        for name in ("loop.wat", "dangling.wat", "none.wat", "text.wat/x", ""):
            suite.expect(f"{words} {name!r}", (2,), [*words, "--", name])
        suite.expect(f"{words} /dev/zero", (2,), [*words, "/dev/zero"], preexec_fn=limit("RLIMIT_AS", 200 * MEBIBYTE))
        with open("/dev/full", "wb") as full:
            suite.expect(f"{words} to a full device", (2,), [*words, path.name], stdout=full)
    suite.expect("fmt --write folder", (0, 1, 2), ["fmt", "--write", "folder"])
    if not stat.S_ISFIFO((folder / "fifo.wat").lstat().st_mode):
        suite.faults.append("fmt --write replaced a FIFO of a folder")
    for words in (["types"], ["module"]):
        suite.expect(f"{words} -o /dev/full", (2,), [*words, path.name, "-o", "/dev/full"])
        suite.expect(f"{words} -o folder", (2,), [*words, path.name, "-o", "folder"])


def stack(suite):
    """Reads deeply nested texts with a small stack."""
    texts = {
        "groups": b"(" * MEBIBYTE + b")" * MEBIBYTE,
        "comments": b"(;" * MEBIBYTE + b";)" * MEBIBYTE,
        "blocks": b"(module (func " + b"block " * MEBIBYTE + b"end " * MEBIBYTE + b"))",
        "folded": b"(module (func " + b"(block " * MEBIBYTE + b")" * MEBIBYTE + b"))",
    }
    small = limit("RLIMIT_STACK", MEBIBYTE // 4)
    for kind, text in texts.items():
        suite.file(f"{kind}.wat", text)
        for words in COMMANDS:
            what, path = f"{words}, nested {kind}", f"{kind}.wat"
            suite.expect(what, (0, 1), [*words, path], seconds=LONG_SECONDS, stdout=subprocess.DEVNULL, preexec_fn=small)


def names(suite):
    """Gives files odd names. Neither a report nor a list of names has a control character."""
    odd = ["-dash.wat", " .wat", "a\nb.wat", "\x1b[31m.wat", "\x7f\u009b31m.wat", "'\"$(x)`.wat", "%s%n.wat", "é漢😀.wat", "a" * 251 + ".wat"]
    for name in odd:
        for content, status in ((TEXT, (0, 1)), (FAULTY, (1,))):
            suite.file(name, content)
            for words in COMMANDS:
                got = suite.expect(f"{words} {name!r}", status, [*words, "./" + name])
                suite.check(f"{words} {name!r}", words != ["fmt", "--check"] or not CONTROL.search(got.output.decode()), got)
        got = suite.expect(f"fmt --write {name!r}", (0, 1, 2), ["fmt", "--write", "./" + name])
        suite.is_whole(f"fmt --write {name!r}", suite.folder / name, got, (FAULTY,))
    for name in ("none\x1b[31m.wat", "a" * 256 + ".wat", "./" * 3000 + "x.wat", os.fsdecode(b"\xff.wat"), ""):
        for words in [*COMMANDS, ["fmt", "--write"]]:
            suite.expect(f"{words} {name[:20]!r}", (2,), [*words, name])


def limits(suite):
    """Limits the size of files and the number of open files. A file is replaced as a whole, or not at all."""
    content = b"(module\n" + b"( func )\n" * 20_000 + b")"
    path = suite.file("limited.wat", content)
    formatted = suite.run(["fmt", path.name]).output
    silent = {"stdout": subprocess.DEVNULL, "stderr": subprocess.DEVNULL}
    # With the default action of the signal, a write beyond the limit kills the process.
    for most, is_killed in itertools.product((0, 1, 1000, 100_000), (False, True)):
        what = f"fmt --write, files of {most} bytes"
        got = suite.run(["fmt", "--write", path.name], preexec_fn=limit("RLIMIT_FSIZE", most), restore_signals=is_killed, **silent)
        suite.check(what, got.status == 2 or (is_killed and got.status == -signal.SIGXFSZ), got)
        suite.is_whole(what, path, got, (content,))
        for rest in set(os.listdir(suite.folder)) - {path.name}:
            (suite.folder / rest).unlink()
    for most in range(3, 8):
        what = f"fmt --write, {most} open files"
        got = suite.expect(what, (0, 2, 127), ["fmt", "--write", path.name], preexec_fn=limit("RLIMIT_NOFILE", most))
        suite.is_whole(what, path, got, (formatted,) if got.status == 0 else (content,))
        path.write_bytes(content)


def calls_of(suite, path):
    """Returns the number of calls of each system call of `fmt --write`."""
    suite.run(["fmt", "--write", path.name], before=["strace", "-f", "-o", str(suite.folder.parent / "trace")])
    lines = (suite.folder.parent / "trace").read_text().splitlines()
    return collections.Counter(found[1] for found in (re.match(r"\d+ +(\w+)\(", line) for line in lines) if found)


def injected(suite, what):
    """Runs `fmt --write` with each of its system calls killed or failed, by strace, and yields the failed call, the file and the outcome."""
    path = suite.file("replaced.wat")
    calls = calls_of(suite, path)
    for name, count in calls.items():
        for number in range(1, count + 1):
            shutil.rmtree(suite.folder)
            suite.folder.mkdir()
            path = suite.file("replaced.wat")
            strace = ["strace", "-f", "-o", "/dev/null", "-e", f"inject={name}:{what}:when={number}"]
            yield f"{name} {number}, {what}", path, suite.run(["fmt", "--write", path.name], before=strace)


def has_strace():
    done = subprocess.run(["strace", "-o", "/dev/null", "true"], check=False, capture_output=True) if shutil.which("strace") else None
    return done is not None and done.returncode == 0


def system_calls(suite):
    """Kills `fmt --write` at each of its system calls, and fails each of them. The file has the old or the new text; with status 0 it has the new."""
    if not has_strace():
        print("robustness.py: killed processes and failed system calls are left out, as strace does not run here")
        return
    for what, path, got in injected(suite, "signal=KILL"):
        suite.is_whole(what, path, got)
    for error in ("EIO", "ENOSPC", "ENOMEM", "EINTR", "EACCES"):
        for what, path, got in injected(suite, f"error={error}"):
            suite.is_whole(what, path, got, (FORMATTED,) if got.status == 0 else (TEXT, FORMATTED))


def writes_of(suite, words, path):
    """Returns the length of the report about a file as standard input, and the number of writes with which it was written."""
    reader, writer = socket.socketpair(socket.AF_UNIX, socket.SOCK_SEQPACKET)
    lengths = []
    collect = threading.Thread(target=lambda: lengths.extend(iter(lambda: len(reader.recv(MEBIBYTE)), 0)))
    collect.start()
    with path.open("rb") as text:
        suite.run(words, stdin=text, stdout=subprocess.DEVNULL, stderr=writer.fileno())
    writer.close()
    collect.join()
    return sum(lengths), len(lengths)


def reports(suite):
    """Reports an error in a long line, and bounds the length of the report and the number of writes; prints the time."""
    print(f"{'line, command':44} {'bytes':>9} {'report':>9} {'seconds':>8}")
    for kind, text in (("tabs", b"\t"), ("letters", b"a"), ("NULs", b"\0"), ("wide", "漢".encode())):
        path = suite.file("line.wat", "é".encode() + text * (8 * MEBIBYTE // len(text)))
        for words in [*COMMANDS, ["fmt", "--write"]]:
            got = suite.expect(f"{kind}, {words}", (1,), [*words, path.name], seconds=LONG_SECONDS)
            print(f"{kind + ', ' + ' '.join(words):44} {path.stat().st_size:9} {len(got.report):9} {got.seconds:8.2f}")
    path = suite.file("tabs.wat", "é".encode() + b"\t" * 100_000)
    for words in [*COMMANDS, ["list", "-"]]:
        length, writes = writes_of(suite, words, path)
        # A report with the name of a file has a window of the line.
        is_named = words[0] == "fmt" or words[-1] == "-"
        if is_named and length > 2_000 or not is_named and length < 400_000:
            suite.faults.append(f"{words}: a report of {length} bytes, {'with' if is_named else 'without'} the name of a file")
        if writes > -(-length // BLOCK):
            suite.faults.append(f"{words}: {writes} writes for a report of {length} bytes, where {-(-length // BLOCK)} is the bound")


def main():
    if len(sys.argv) != 2:
        print(__doc__.split("\n\n")[1], file=sys.stderr)
        return 2
    faults = runs = 0
    for part in (memory, stack, closed_streams, broken_pipes, devices, names, limits, system_calls, reports):
        with tempfile.TemporaryDirectory() as folder:
            files = pathlib.Path(folder) / "files"
            files.mkdir()
            suite = Suite(sys.argv[1], files)
            begun = time.monotonic()
            part(suite)
        for fault in suite.faults:
            print(f"robustness.py: {fault}")
        print(f"robustness.py: {part.__name__}: {suite.runs} runs in {time.monotonic() - begun:.0f} s, {len(suite.faults)} faults", flush=True)
        faults, runs = faults + len(suite.faults), runs + suite.runs
    print(f"robustness.py: {runs} runs, {faults} faults")
    return 1 if faults else 0


if __name__ == "__main__":
    sys.exit(main())
