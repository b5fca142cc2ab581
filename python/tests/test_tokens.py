"""Tests of tokens, significant tokens, lines and columns."""
import re

import numpy
import pytest
import wat_lex
from conftest import TOP, is_text
from wat_lex import Kind

CALLS = [wat_lex.tokens, wat_lex.significant, wat_lex.errors, wat_lex.compile, wat_lex.check, wat_lex.format]
FLOATS = {Kind.INF: "inf", Kind.NAN: "nan", Kind.NAN_PAYLOAD: "nan"}


def listed(rows):
    return "".join(f"{row['offset']}..{row['offset'] + row['length']} {wat_lex.KIND_NAMES[row['kind']]}\n" for row in rows)


def test_golden_texts(golden_tests):
    assert any(test.settings for test in golden_tests)
    for test in golden_tests:
        if is_text(test.text):
            assert listed(wat_lex.tokens(test.text, partial=True, **test.settings)) == test.listed, test.name


def test_kinds_of_numbers():
    lines = [line.split() for line in (TOP / "tests/numbers.txt").read_text(encoding="utf-8").split("\n") if line and not line.startswith("#")]
    assert len(lines) > 50
    for text, kind, *rest in lines:
        rows = wat_lex.tokens(text)
        named = FLOATS.get(rows["kind"][0], wat_lex.KIND_NAMES[rows["kind"][0]].lower())
        assert (len(rows), named, rows["length"][0]) == (1, kind.lower().lstrip("-"), len(text)), text
        assert not rest or rest[0] not in ("10", "16") or bool(rows["hex"][0]) == (rest[0] == "16"), text
        assert kind.lower() not in ("integer", "float") or bool(rows["has_underscores"][0]) == ("_" in text), text


def test_signs():
    assert wat_lex.tokens("1 +1 -1 -inf")["sign"].tolist() == [0, 0, 1, 0, 2, 0, 2]


def test_text_of_each_type_has_the_same_tokens():
    text = '(data "é\U0001f600") ;; 漢\n'
    rows = wat_lex.tokens(text)
    assert rows.dtype == wat_lex.TOKEN and (rows == wat_lex.tokens(text.encode())).all()
    assert b"".join(text.encode()[row["offset"] :][: row["length"]] for row in rows) == text.encode()


@pytest.mark.parametrize("text", [5, None, bytearray(b"a"), memoryview(b"a"), ["a"]])
@pytest.mark.parametrize("call", [*CALLS, lambda text: wat_lex.line_col(text, [0])])
def test_other_types_are_rejected(call, text):
    with pytest.raises(TypeError):
        call(text)


@pytest.mark.parametrize("call", CALLS)
def test_bytes_must_be_utf_8(call):
    with pytest.raises(UnicodeDecodeError) as caught:
        call(b"(a \xff)")
    assert caught.value.start == 3
    with pytest.raises(UnicodeEncodeError):
        call("\ud800")


def test_arrays_share_the_memory_that_the_library_wrote():
    for rows in (wat_lex.tokens("(a) " * 5), wat_lex.significant("(a) " * 5)):
        assert rows.base is not None and rows.base.nbytes == rows.nbytes
        rows["length"] = 7
        assert (rows.base.view(rows.dtype)["length"] == 7).all()


@pytest.mark.parametrize("text", ["", "(", "(" * 40000, "( " * 40000, "a" * 100000, "(a b) \n" * 20000])
def test_memory_grows_with_the_tokens(text):
    wanted = [match.span() for match in re.finditer(r"[()]|[a-z]+|[ \n]+", text)]
    rows = wat_lex.tokens(text)
    assert len(rows) == len(wanted)
    assert (rows["offset"] == [start for start, _ in wanted]).all() and (rows["length"] == [end - start for start, end in wanted]).all()
    rows = wat_lex.significant(text)
    wanted = [(start, end) for start, end in wanted if not text[start].isspace()]
    assert rows["offset"].tolist() == [start for start, _ in wanted]


def test_links_lead_to_the_end_of_the_group():
    rows = wat_lex.significant("(a (@b) c) d (")
    assert rows["kind"].tolist() == [Kind.LPAREN, Kind.KEYWORD, Kind.OPENS_AT, Kind.ANNOTATION, Kind.RPAREN, Kind.KEYWORD, Kind.RPAREN, Kind.KEYWORD,
                                     Kind.LPAREN]  # fmt: skip
    assert rows["link"].tolist() == [7, 7, 5, 5, 7, 7, 0, 0, 0]


def test_an_error_ends_the_tokens():
    for call in (wat_lex.tokens, wat_lex.significant):
        assert len(call('(a "\\q")', partial=True)) == (3 if call is wat_lex.tokens else 2)
        with pytest.raises(wat_lex.LexError):
            call('(a "\\q")')


def test_settings():
    assert len(wat_lex.tokens(";;\u202e", allow_confusing=True)) == 1
    assert len(wat_lex.tokens('"\\u{1__2}"')) == 1
    for call, text in [(wat_lex.tokens, ";;\u202e"), (wat_lex.significant, ";;\u202e")]:
        with pytest.raises(wat_lex.LexError):
            call(text)
    with pytest.raises(wat_lex.LexError):
        wat_lex.tokens('"\\u{1__2}"', strict_underscores=True)
    assert not wat_lex.errors(";;\u202e", allow_confusing=True) and wat_lex.errors('"\\u{1__2}"', strict_underscores=True)


def test_lines_and_columns(mutants):
    for text in ["", "\n", "a\n\nb", "é\n漢", *mutants[:300]]:
        data = text.encode()
        offsets = numpy.arange(len(data) + 1)
        lines, columns = wat_lex.line_col(text, offsets)
        assert lines.tolist() == [data.count(b"\n", 0, offset) + 1 for offset in offsets]
        assert columns.tolist() == [offset - data.rfind(b"\n", 0, offset) for offset in offsets]


def test_shapes_of_offsets():
    lines, columns = wat_lex.line_col("a\nb", [[0, 1], [2, 3]])
    assert lines.tolist() == [[1, 1], [2, 2]] and columns.tolist() == [[1, 2], [1, 2]]
    assert wat_lex.line_col("a\nb", 2) == (2, 1)
    assert [part.tolist() for part in wat_lex.line_col("a", [])] == [[], []]
    assert wat_lex.line_col("a\nb", numpy.array([2], numpy.uint64))[0].tolist() == [2]


def test_offsets_outside_of_the_text():
    for offsets in ([-1], [4], 4, [0, 9]):
        with pytest.raises(IndexError):
            wat_lex.line_col("a\nb", offsets)
    with pytest.raises(TypeError):
        wat_lex.line_col("a\nb", [0.5])
