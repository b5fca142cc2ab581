"""Compares the package with the program wat_tokens, on golden texts and on mutants of them."""
import json
import subprocess

import numpy
import wat_lex
from conftest import is_text
from wat_lex import Kind

BATCH = 500


def run(program, arguments, data=b"", folder=None):
    return subprocess.run([program, *arguments], input=data, capture_output=True, check=False, cwd=folder)


def objects(program, texts, folder):
    """Returns for each text the objects that the program lists as JSON."""
    names = [f"{number}.wat" for number in range(len(texts))]
    for name, text in zip(names, texts):
        (folder / name).write_bytes(text)
    found = {name: [] for name in names}
    for line in run(program, ["--json", "list", *names], folder=folder).stdout.split(b"\n"):
        if line:
            item = json.loads(line)
            found[item.pop("file")].append(item)
    return found.values()


def as_objects(text):
    """Returns the objects that the program must list for a text, by the package."""
    rows = wat_lex.tokens(text, partial=True)
    lines, columns = wat_lex.line_col(text, rows["offset"])
    values = zip(rows["offset"].tolist(), rows["length"].tolist(), rows["kind"].tolist(), lines.tolist(), columns.tolist())
    listed = [
        {"offset": start, "length": length, "kind": wat_lex.KIND_NAMES[kind], "text": text[start : start + length].decode(), "line": line, "column": column}
        for start, length, kind, line, column in values
    ]
    error = wat_lex.errors(text)[:1]
    return listed + [{"offset": one.offset, "fault": one.message, "line": one.line, "column": one.column} for one in error]


def all_texts(golden_tests, mutants):
    return [test.text for test in golden_tests if is_text(test.text)] + [text.encode() for text in mutants]


def test_tokens_and_errors(program, golden_tests, mutants, tmp_path):
    texts, errors, compared = all_texts(golden_tests, mutants), 0, 0
    for start in range(0, len(texts), BATCH):
        batch = texts[start : start + BATCH]
        for text, wanted in zip(batch, objects(program, batch, tmp_path)):
            assert as_objects(text) == wanted, text
            errors += "fault" in (wanted or [{}])[-1]
            compared += 1
    assert compared == len(texts) and errors > len(texts) / 20


def test_significant_tokens(golden_tests, mutants):
    """The tokens were compared with the program's; those that are significant are all but whitespace and comments."""
    for text in all_texts(golden_tests, mutants):
        rows, found = wat_lex.tokens(text, partial=True), wat_lex.significant(text, partial=True)
        rows = rows[rows["kind"] > Kind.WHITESPACE]
        kinds = numpy.where(found["kind"] == Kind.OPENS_AT, Kind.LPAREN, found["kind"])
        assert (rows["kind"] == kinds).all() and (rows["offset"] == found["offset"]).all() and (rows["length"] == found["length"]).all(), text
        opens = found["kind"] == Kind.OPENS_AT
        assert all(text[offset : offset + 2] == b"(@" for offset in found["offset"][opens].tolist())


def test_excerpts(program, mutants):
    """Compares the error that ends the list, as it is printed, for each 20th mutant."""
    compared = 0
    for text in mutants[::20]:
        printed = run(program, [], text.encode()).stderr.decode()
        error = wat_lex.errors(text)[:1]
        compared += len(error)
        assert printed == "".join(one.excerpt + "\n" for one in error), text
    assert compared > 20


def test_settings(program, mutants):
    """Compares the lists with each setting, for each 40th mutant and for texts to which the settings apply."""
    for text in [";;\u202e", '"\\u{1__2}"', "(;\u2069;)", *mutants[::40]]:
        for option, settings in [("--allow-confusing", {"allow_confusing": True}), ("--strict-underscores", {"strict_underscores": True})]:
            rows = wat_lex.tokens(text, partial=True, **settings)
            listed = "".join(f"{row['offset']}..{row['offset'] + row['length']} {wat_lex.KIND_NAMES[row['kind']]}\n" for row in rows)
            done = run(program, [option], text.encode())
            assert done.stdout.decode() == listed, text
            assert done.returncode == bool(wat_lex.errors(text, **settings)), text
