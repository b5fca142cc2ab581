#!/usr/bin/env python3
"""Checks what the program writes with --json. Python's JSON parser reads it, and each object is compared with the line of the plain list and with
the text: its offset, length, kind and text, and its line and column, which are counted again here. The report and the exit status must be those
of the plain list. After the last token of a text with a lexical error, an object must say what the report says. The texts are the golden tests of
crates/wat_tokens/agreement, generated texts, and texts with each byte that is escaped. Texts of plain ASCII are also cut at some tokens and
followed by a lexical error, whose message must have the line and column of the token's object.

usage: tools/test/json_output.py PROGRAM [FILE..]     these files instead of the texts
"""
import bisect
import json
import pathlib
import re
import subprocess
import sys

sys.dont_write_bytecode = True
sys.path.append(str(pathlib.Path(__file__).resolve().parents[1] / "lib"))
import generate_kinds  # noqa: E402

TOOLS = pathlib.Path(__file__).resolve().parents[1]
AGREEMENT = TOOLS.parent / "crates/wat_tokens/agreement"
ROW = re.compile(rb"(\d+)\.\.(\d+) (\w+)")
MEMBERS = ["offset", "length", "kind", "text", "line", "column"]
FAULT = ["offset", "fault", "line", "column"]
ODD = [
    ";;" + "".join(chr(c) for c in range(128) if c not in (10, 13)) + "\n(;" + "".join(chr(c) for c in range(128)) + ";)x",
    "(;\r\n\n\r\t;)\r\n \"\\\"\\\\\\u{22}\" ;;\\\n\n$x",
    ";;\u2028\u2029\u00e9\u6f22\U0001f600\ufffd\x7f \"\u00e9\U0001f600\" (; \u6f22\n\u00e9 ;) x",
    "\n" * 300 + "x" * 300 + " y\n",
]


def run(program, options, text):
    done = subprocess.run([program, *options], input=text, capture_output=True, check=False)
    return done.returncode, done.stderr, done.stdout


def faults(text, rows, lines):
    """Yields the differences between the JSON lines of a text and the rows of its plain list."""
    if len(rows) != len(lines):
        yield f"{len(lines)} lines for {len(rows)} rows"
    starts = [0] + [at + 1 for at, byte in enumerate(text) if byte == 10]
    for row, line in zip(rows, lines):
        start, end, kind = ROW.fullmatch(row).groups()
        start, end = int(start), int(end)
        number = bisect.bisect(starts, start)
        wanted = [start, end - start, kind.decode(), text[start:end].decode(), number, start - starts[number - 1] + 1]
        found = json.loads(line.decode())
        if list(found) != MEMBERS or list(found.values()) != wanted:
            yield f"{line!r} in place of {wanted}"


def fault_faults(text, report, line):
    """Yields the differences between the JSON line of a lexical error and its report."""
    fault = json.loads(line.decode())
    if list(fault) != FAULT:
        yield f"no line of a fault: {line!r}"
        return
    offset, message = fault["offset"], fault["fault"]
    number = text.count(b"\n", 0, offset) + 1
    column = offset - text.rfind(b"\n", 0, offset)
    if (fault["line"], fault["column"]) != (number, column):
        yield f"{line!r}, where line {number} and column {column} are wanted"
    forms = (f"{message}\n     --> <anon>:{number}:", f"{message} at <anon>:{number}:", f"{message} at byte offset {offset}\n")
    if not report.decode().startswith(forms):
        yield f"{line!r} with the report {report!r}"


def places(program, text, lines):
    """Yields the objects of some tokens of a plain ASCII text, each with the message of an error at the token's offset."""
    plain = all(byte in (10, 13) or 32 <= byte < 127 for byte in text)
    for line in lines[:: max(1, len(lines) // 8)] if plain else []:
        found = json.loads(line.decode())
        message = run(program, [], text[: found["offset"]] + b"\x7f")[1].decode()
        # A line comment continues if its line end is cut off, and far to the right a message has another form.
        if message and found["column"] <= 500:
            yield found, message


def check(program, name, text):
    """Returns the faults of a text's JSON lists, the number of objects, and the number of messages."""
    wrong, objects, messages = [], 0, 0
    for command in (["list"], ["sig"], ["--allow-confusing", "sig", "a"]):
        status, report, rows = run(program, command, text)
        ended, reported, lines = run(program, ["--json", *command], text)
        if (ended, reported) != (status, report):
            wrong.append(f"status {ended} in place of {status}, or another report")
        lines = lines.splitlines(keepends=True)
        if status == 1:
            wrong += fault_faults(text, report, lines.pop() if lines else b"{}")
        wrong += [f"no line end: {line!r}" for line in lines if not line.endswith(b"}\n")]
        wrong += faults(text, rows.splitlines(), lines)
        objects += len(lines)
        for told_place, message in places(program, text, lines) if command == ["list"] else []:
            messages += 1
            if f"<anon>:{told_place['line']}:{told_place['column']}\n" not in message:
                wrong.append(f"{told_place}, and the message {message!r}")
    return [f"{name}: {fault}" for fault in wrong], objects, messages


def generated():
    """Yields the texts of the generators: one of all kinds, and one of each kind."""
    yield "generate_text.py", subprocess.run([sys.executable, TOOLS / "lib/generate_text.py", "0.05"], capture_output=True, check=True).stdout
    yield from ((name, "".join(piece() for _ in range(40)).encode()) for name, piece in generate_kinds.PIECES.items())
    yield from ((name, make(4000).encode()) for name, make in generate_kinds.WHOLE.items())


def texts(files):
    if files:
        yield from ((file, pathlib.Path(file).read_bytes()) for file in files)
        return
    yield from ((f"text {place}", text.encode()) for place, text in enumerate(ODD))
    yield from generated()
    for file in sorted(AGREEMENT.iterdir()):
        if not file.suffix:
            yield file.name, file.read_bytes()


def main():
    if len(sys.argv) < 2:
        print(__doc__.rsplit("\n\n", 1)[1].strip(), file=sys.stderr)
        return 2
    wrong, objects, messages, count = [], 0, 0, 0
    for name, text in texts(sys.argv[2:]):
        found, lines, shown = check(sys.argv[1], name, text)
        wrong += found
        objects += lines
        messages += shown
        count += 1
    print("\n".join([*wrong[:20], f"json_output.py: {objects} objects of {count} texts, {messages} messages, {len(wrong)} faults"]))
    return 1 if wrong or not objects else 0


if __name__ == "__main__":
    sys.exit(main())
