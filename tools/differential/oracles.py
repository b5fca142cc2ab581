"""The programs that compile modules, for compare_modules.py: the one under test, `wat2wasm`, and the encoder of the crate wast.

A result is a pair: the bytes of the module or `None`, and a message.
"""
import subprocess
import sys
import tempfile


class Program:
    """The program under test, run once for each text."""

    def __init__(self, command):
        self.command = command

    def answer(self, text):
        ran = subprocess.run(self.command, input=text.encode(), capture_output=True, check=False)
        said = ran.stderr.decode(errors="replace")
        if ran.returncode not in (0, 1) or (ran.returncode == 1) == (not said):
            sys.exit(f"compare_modules.py: status {ran.returncode} of {text!r}: {said}")
        return (None, said) if ran.returncode else (ran.stdout, "")


class Wat2wasm:
    """The program `wat2wasm --no-check`, run once for each text."""

    def __init__(self):
        self.room = tempfile.TemporaryDirectory()

    def answer(self, text):
        path = f"{self.room.name}/module.wat"
        with open(path, "w", encoding="utf-8") as it:
            it.write(text)
        ran = subprocess.run(["wat2wasm", "--no-check", "--enable-multi-memory", path, "--output=-"], capture_output=True, check=False)
        return (ran.stdout, "") if ran.returncode == 0 else (None, ran.stderr.decode(errors="replace"))


class Encoder:
    """The encoder of wast, one process for all texts. A text at which it stops counts as rejected."""

    def __init__(self, program):
        self.program, self.process = program, None

    def answer(self, text):
        if self.process is None or self.process.poll() is not None:
            self.process = subprocess.Popen([self.program], stdin=subprocess.PIPE, stdout=subprocess.PIPE, stderr=subprocess.DEVNULL)
        data = text.encode()
        self.process.stdin.write(b"%d\n" % len(data) + data)
        self.process.stdin.flush()
        line = self.process.stdout.readline().decode(errors="replace").rstrip("\n")
        if line.startswith("= "):
            return bytes.fromhex(line[2:]), ""
        return None, line[2:] or f"it stopped, status {self.process.wait()}"
