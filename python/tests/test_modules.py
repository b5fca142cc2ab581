"""Tests of the compiler and the formatter, on golden tests and compared with the program."""
import os
import pickle
import subprocess
from concurrent.futures import ThreadPoolExecutor

import pytest
import wat_lex
from conftest import TOP, golden_pairs


def outcome(text, names=True):
    """Returns the hexadecimal digits of the binary, or the error as in tests/modules.txt."""
    try:
        return wat_lex.compile(text, names=names).hex()
    except wat_lex.CompileError as error:
        return f"{error.message} at {error.offset}"


def formatted(text):
    try:
        return wat_lex.format(text)
    except wat_lex.LexError:
        return None


def test_golden_modules():
    pairs = golden_pairs("modules.txt")
    assert len(pairs) > 100 and {" at " in wanted for _, wanted in pairs} == {True, False}
    for text, wanted in pairs:
        assert outcome(text, names=False) == wanted, text
        error = wat_lex.check(text, names=False)
        assert (error is None) == (" at " not in wanted) and (error is None or f"{error.message} at {error.offset}" == wanted), text


def test_golden_layouts():
    pairs = golden_pairs("layouts.txt")
    assert len(pairs) > 50
    for text, wanted in pairs:
        assert formatted(text) == (None if wanted == "fault" else wanted), text


def test_members_of_an_error():
    with pytest.raises(wat_lex.CompileError) as caught:
        wat_lex.compile("(module\n (func frob))")
    error = caught.value
    assert (error.message, error.offset, error.length, error.line, error.column) == ("unknown instruction `frob`", 15, 4, 2, 8)
    assert error.excerpt.split("\n")[:2] == ["unknown instruction `frob`", "     --> <anon>:2:8"]
    copy = pickle.loads(pickle.dumps(error))
    assert (str(copy), copy.length, copy.excerpt) == (str(error), error.length, error.excerpt)
    assert wat_lex.check("(module") is not None and wat_lex.check("(module)") is None


def test_names_are_optional():
    text = "(module $m (func $f))"
    assert b"\x04name" in wat_lex.compile(text) and b"\x04name" not in wat_lex.compile(text, names=False)


def test_custom_sections_are_written_with_names():
    text = '(@custom "a" "A") (func)'
    with_names, without = wat_lex.compile(text), wat_lex.compile(text, names=False)
    assert with_names == without + b"\x00\x03\x01aA"
    misplaced = '(func (@custom "a"))'
    assert wat_lex.compile(misplaced, names=False) == without and wat_lex.check(misplaced, names=False) is None
    assert outcome(misplaced) == "annotation `@custom` where no field may be at 6"


def test_buffers_that_are_too_small_at_first():
    data = "(data \"a\") " * 3 + "(memory 1)"
    many = "(func) " * 20000
    assert wat_lex.compile(many.encode()) == wat_lex.compile(many) and outcome(data).startswith("0061736d")
    assert len(wat_lex.format("(a (b (c\n" * 200 + ")" * 600)) > 10000


def test_the_type_of_a_formatted_text_is_that_of_the_text():
    text, wanted = '(a\n( "é" ))', '(a\n  ("é"))\n'
    assert wat_lex.format(text) == wanted and wat_lex.format(text.encode()) == wanted.encode()
    assert wat_lex.format(";;\u202e", allow_confusing=True) == ";;\u202e\n"
    for settings, text in [({}, ";;\u202e"), ({"strict_underscores": True}, '"\\u{1__2}"')]:
        with pytest.raises(wat_lex.LexError):
            wat_lex.format(text, **settings)


def compiled(program, text):
    """Returns status, standard output and standard error of the program's command `module`."""
    done = subprocess.run([program, "module", "--no-validate"], input=text.encode(), capture_output=True, check=False)
    return done.returncode, done.stdout, done.stderr.decode()


def expected(text, printed):
    """Returns what the command must return, by the package. The program prints the errors of a few annotations without their line."""
    error = wat_lex.check(text)
    if error is None:
        return 0, wat_lex.compile(text), ""
    short = f"{error.message} at byte offset {error.offset}\n"
    return 1, b"", short if printed == short and "annotation" in printed else error.excerpt + "\n"


def test_binaries_and_errors_of_the_program(program, mutants, modules):
    outcomes = [0, 0]
    with ThreadPoolExecutor(os.cpu_count()) as pool:
        for text, found in zip(modules + mutants, pool.map(lambda text: compiled(program, text), modules + mutants)):
            assert expected(text, found[2]) == found, text
            outcomes[found[0]] += 1
    assert min(outcomes) > len(modules) / 20


def test_formatted_texts_of_the_program(program, mutants, modules, tmp_path):
    """The command `fmt --write` replaces each text by the formatted one, unless it has a lexical error, which it reports."""
    texts, errors = modules + mutants, 0
    for start in range(0, len(texts), 500):
        batch = {f"{number}.wat": text for number, text in enumerate(texts[start : start + 500])}
        for name, text in batch.items():
            (tmp_path / name).write_bytes(text.encode())
        reports = subprocess.run([program, "fmt", "--write", *batch], capture_output=True, check=False, cwd=tmp_path).stderr.decode().split("\n")
        found = {name: (tmp_path / name).read_bytes().decode() for name in batch}
        assert found == {name: text if formatted(text) is None else formatted(text) for name, text in batch.items()}
        wrong = {name: wat_lex.errors(text)[0] for name, text in batch.items() if formatted(text) is None}
        located = [report.strip() for report in reports if report.startswith("     --> ")]
        assert [report.split(":")[0] for report in located] == [f"--> {name}" for name in wrong]
        assert [error.message for error in wrong.values()] == [before for before, after in zip(reports, reports[1:]) if after.startswith("     --> ")]
        errors += len(wrong)
    assert errors > len(texts) / 20
