"""Fixtures: the golden texts, mutants of them, and the program wat_tokens, which WAT_PROGRAM names if it is not in rust/target/release."""
import os
import pathlib
import random
import re

import pytest

TOP = pathlib.Path(__file__).resolve().parents[2]
AGREEMENT = TOP / "crates/wat_tokens/agreement"
# Parts that mutants get, of which many end in an error.
PARTS = ["(", ")", '"', "\\", "\\q", "\\u{", "}", "(;", ";)", ";;", "\n", "\r\n", "\t", " ", "$", "@", "_", "0x", "nan", "é", "漢", "\U0001f600", "\u202e",
         "\x01", "\x7f", "\u2028", "(@a ", "1e", ".5", "func", ","]  # fmt: skip
OPTIONS = {"--allow-confusing": "allow_confusing", "--strict-underscores": "strict_underscores"}


class Golden:
    """A golden text, its expected list of tokens, and the settings of the lexer."""

    def __init__(self, path):
        arguments = path.with_name(path.name + ".args")
        self.words = arguments.read_text(encoding="utf-8").split() if arguments.exists() else []
        self.name, self.text = path.name, path.read_bytes()
        self.listed = path.with_name(path.name + ".stdout").read_text(encoding="utf-8")
        self.settings = {OPTIONS[word]: True for word in self.words if word in OPTIONS}


def golden():
    paths = sorted(path for path in AGREEMENT.iterdir() if path.suffix not in (".stdout", ".args"))
    tests = [Golden(path) for path in paths]
    return [test for test in tests if set(test.words) <= OPTIONS.keys()]


SIGNS = {"⏎": "\n", "␍": "\r", "␉": "\t", "␟": "\x1f", "␡": "\x7f", "␠": " "}


def decoded(line):
    """Returns a text of a table, whose notation tests/README.md describes."""
    line = re.sub(r"‹(\d+)×([^›]*)›", lambda match: match[2] * int(match[1]), line)
    line = re.sub(r"‹([0-9a-f]+)›", lambda match: chr(int(match[1], 16)), line)
    return "".join(SIGNS.get(sign, sign) for sign in line)


def golden_pairs(name):
    """Returns the texts of a table, each with its expected result."""
    lines = (TOP / "tests" / name).read_text(encoding="utf-8").removesuffix("\n").split("\n")
    lines = [line for line in lines if not line.startswith("#")]
    pairs = [(text, wanted) for text, wanted in zip(lines, lines[1:]) if wanted.startswith("    ") and not text.startswith("    ")]
    return [(decoded(text), "" if wanted == "    nothing" else decoded(wanted[4:])) for text, wanted in pairs]


def is_text(data):
    try:
        data.decode("utf-8")
    except UnicodeDecodeError:
        return False
    return True


def mutant(rng, text, other):
    """Returns a text with one to four changes: a part inserted, a range removed, doubled, or replaced by a range of another text."""
    for _ in range(rng.randrange(1, 5)):
        start = rng.randrange(len(text) + 1)
        end = min(start + rng.randrange(1, 12), len(text))
        begin = rng.randrange(len(other) + 1)
        new = rng.choice([rng.choice(PARTS), "", text[start:end] * 2, other[begin : begin + 20]])
        text = text[:start] + new + text[end if rng.random() < 0.5 else start :]
    return text


@pytest.fixture(scope="session")
def golden_tests():
    found = golden()
    assert len(found) > 200
    return found


@pytest.fixture(scope="session")
def mutants(golden_tests):
    """Returns texts that are mutants of the golden texts, 20,000 or as many as WAT_MUTANTS says."""
    texts = [test.text.decode("utf-8") for test in golden_tests if is_text(test.text) and len(test.text) < 3000]
    rng = random.Random(73)
    return [mutant(rng, rng.choice(texts), rng.choice(texts)) for _ in range(int(os.environ.get("WAT_MUTANTS", "20000")))]


@pytest.fixture(scope="session")
def modules(mutants):
    """Returns golden modules, and mutants of them, half as many as of the golden texts."""
    texts = [text for text, _ in golden_pairs("modules.txt")]
    rng = random.Random(74)
    return texts + [mutant(rng, rng.choice(texts), rng.choice(texts)) for _ in range(len(mutants) // 2)]


@pytest.fixture(scope="session")
def program():
    path = pathlib.Path(os.environ.get("WAT_PROGRAM", TOP / "rust/target/release/wat_tokens")).resolve()
    if not path.exists() and "WAT_PROGRAM" not in os.environ:
        pytest.skip(f"no program {path}: cargo build --release --package wat-tokens")
    assert path.exists(), path
    return path
