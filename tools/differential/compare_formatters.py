#!/usr/bin/env python3
"""Compares the formatted texts of a program, line by line, with those of `tools/differential/reference_formatter.py`: on all joins of a few difficult
fragments, on longer random joins, and on the given files.

It also checks the guarantees of each formatted text: it has the same raw tokens except whitespace, it has no blank before a line end, and formatting
is idempotent. If `wat2wasm` is installed and accepts a file, it must write the same bytes for the formatted file.

PROGRAM is rust/wat-tokens/examples/layouts.rs, or page/laid.mjs. With --command the files are formatted by `fmt` of that program. --alone skips
`wat2wasm`.

usage: compare_formatters.py [--joins LENGTH] [--random COUNT] [--command WAT_TOKENS] [--alone] PROGRAM [FILE..]
"""

import argparse
import itertools
import pathlib
import random
import shutil
import subprocess
import sys
import tempfile

import reference_formatter

PIECES = ["(", ")", ";;x\n", ";;x", "(;x;)", "(;\n;)", '"s"', "a", "$x", "@a", "(@a", "\n\n\n", " ", "\r\n", "\r", ";", ","]
PIECES += ["@", "end", "block", "\t"]
MORE = PIECES + ["\n", "  ", "else", "if", "try_table", "catch_all", "delegate", "1", "-0x1p3", "[", "]", "{", "}", '"', "(;", "é"]
MORE += ['"é\\n"', "\n  ", " ;; y\n"]
MOST_AT_ONCE = 50_000
ESCAPES = str.maketrans({"\n": "\\n", "\r": "\\r", "\t": "\\t", "\\": "\\\\"})


def wanted(text):
    """Returns the formatted text, or `None` if the text has a lexical error."""
    try:
        return reference_formatter.layout(text)
    except reference_formatter.Fault:
        return None


def answered(program, texts):
    """Returns the lines that the program writes for some texts."""
    lines = "".join(text.translate(ESCAPES) + "\n" for text in texts)
    ran = subprocess.run(program, input=lines.encode(), capture_output=True, check=True)
    return ran.stdout.decode().split("\n")[:-1]


def without_white(text):
    """Returns the raw tokens of a text except whitespace."""
    return [token for token in reference_formatter.raw_tokens(text) if token[0] != "white"]


def keeps_promises(text, answer):
    """Returns `True` if a formatted text has the guarantees of the formatter."""
    white = [word for kind, word in reference_formatter.raw_tokens(answer) if kind == "white"]
    return (
        without_white(text) == without_white(answer)
        and not any(" \n" in word or "\t" in word or "\r" in word for word in white)
        and reference_formatter.layout(answer) == answer
    )


def compare(program, texts):
    """Compares the program's results for some texts, and returns a summary with the number of texts and of those without a lexical error."""
    count, fine = 0, 0
    while batch := list(itertools.islice(texts, MOST_AT_ONCE)):
        for text, answer in zip(batch, answered(program, batch), strict=True):
            want = wanted(text)
            if answer != ("fault" if want is None else want.translate(ESCAPES)):
                sys.exit(f"{text!r} is laid out as {answer!r} and not as {want!r}")
            if want is not None and not keeps_promises(text, want):
                sys.exit(f"{text!r} does not keep its tokens in {want!r}, or that is laid out otherwise")
            count, fine = count + 1, fine + (want is not None)
    return f"{count} texts, {fine} without a fault"


def joins(length):
    """Yields all joins of at most `length` fragments."""
    for count in range(length + 1):
        for pieces in itertools.product(PIECES, repeat=count):
            yield "".join(pieces)


def random_joins(count):
    """Yields random joins of at most 39 fragments."""
    rng = random.Random(1)
    for _ in range(count):
        yield "".join(rng.choice(MORE) for _ in range(rng.randrange(40)))


def file_texts(names):
    """Yields the texts of the files that are UTF-8, and prints the names of the others."""
    for name in names:
        with open(name, "rb") as file:
            try:
                yield file.read().decode()
            except UnicodeDecodeError:
                print(f"{name}: left out, as it is not UTF-8")


def compare_files(command, names):
    """Compares what the command writes for files, and returns a summary: all files, those without a lexical error, and those already formatted."""
    count, fine, same = 0, 0, 0
    for name in names:
        for text in file_texts([name]):
            ran = subprocess.run([command, "fmt", "--", name], capture_output=True)
            want = wanted(text)
            if (ran.returncode, ran.stdout) != ((1, b"") if want is None else (0, want.encode())):
                sys.exit(f"{name} is laid out otherwise, with status {ran.returncode}")
            if want is not None and not keeps_promises(text, want):
                sys.exit(f"{name} does not keep its tokens, or its layout is laid out otherwise")
            count, fine, same = count + 1, fine + (want is not None), same + (want == text)
    return f"{count} files, {fine} without a fault, {same} laid out already"


def assembled(text):
    """Returns the bytes that `wat2wasm` writes for a text, or `None` if it rejects the text or does not terminate in time."""
    with tempfile.TemporaryDirectory() as room:
        source, target = pathlib.Path(room, "text.wat"), pathlib.Path(room, "text.wasm")
        source.write_bytes(text.encode())
        try:
            ran = subprocess.run(["wat2wasm", "--enable-all", source, "-o", target], capture_output=True, timeout=20)
        except subprocess.TimeoutExpired:
            return None
        return None if ran.returncode else target.read_bytes()


def compare_assembled(names):
    """Compares what `wat2wasm` writes for files with what it writes for the formatted files, and returns a summary."""
    same, refused = 0, 0
    for text in file_texts(names):
        want = wanted(text)
        before = None if want is None else assembled(text)
        if before is None:
            refused += 1
        elif before == assembled(want):
            same += 1
        else:
            sys.exit(f"wat2wasm writes other bytes for the layout of {text[:200]!r}")
    return f"the same bytes for {same} files, {refused} refused before"


def main():
    """Parses the command line and runs the comparisons."""
    parser = argparse.ArgumentParser()
    parser.add_argument("--joins", type=int, default=3)
    parser.add_argument("--random", type=int, default=20_000)
    parser.add_argument("--alone", action="store_true")
    parser.add_argument("--command")
    parser.add_argument("program")
    parser.add_argument("files", nargs="*")
    options = parser.parse_args()
    print("joins:", compare(options.program, joins(options.joins)))
    print("random joins:", compare(options.program, random_joins(options.random)))
    if options.command:
        print("files:", compare_files(options.command, options.files))
    else:
        print("files:", compare(options.program, file_texts(options.files)))
    if shutil.which("wat2wasm") and not options.alone:
        print("wat2wasm:", compare_assembled(options.files))


if __name__ == "__main__":
    main()
