"""Tests of lexical errors and of the exceptions."""
import pickle
import re
import time

import pytest
import wat_lex
from conftest import TOP
from wat_lex import Fault, _library

EXCERPT = """invalid string escape 'q'
     --> <anon>:2:5
      |
    2 | b "\\q"
      |     ^"""
# A text with each error that a text can have, and its offset.
TEXTS = [
    ("a (; b", Fault.DANGLING_BLOCK_COMMENT, 2, "unterminated block comment"), ("a \x01", Fault.UNEXPECTED, 2, "unexpected character '\\u{1}'"),
    ('"\x01"', Fault.INVALID_STRING_ELEMENT, 1, "invalid character in string '\\u{1}'"),
    ('"\\q"', Fault.INVALID_STRING_ESCAPE, 2, "invalid string escape 'q'"), ('"\\0g"', Fault.INVALID_HEX_DIGIT, 3, "invalid hex digit 'g'"),
    ('"\\u0"', Fault.EXPECTED, 3, "expected '{' but found '0'"), ('"a', Fault.UNEXPECTED_EOF, 2, "unexpected end-of-file"),
    ('"\\u{111111111}"', Fault.NUMBER_TOO_BIG, 12, "number is too big to parse"),
    ('"\\u{d800}"', Fault.INVALID_UNICODE_VALUE, 8, "invalid unicode scalar value 0xd800"),
    ('"\\u{1_}"', Fault.LONE_UNDERSCORE, 6, "bare underscore in numeric literal"),
    (";;\u202e", Fault.CONFUSING_UNICODE, 2, "likely-confusing unicode character found"),
]  # fmt: skip


@pytest.mark.parametrize("text, fault, offset, message", TEXTS)
def test_each_fault(text, fault, offset, message):
    for call in (wat_lex.tokens, wat_lex.significant):
        with pytest.raises(wat_lex.LexError) as caught:
            call(text)
        assert (caught.value.fault, caught.value.message.split(" '\\u{202e}'")[0]) == (fault, message)
    assert [error.fault for error in wat_lex.errors(text)][:1] == [fault]


def test_members_of_an_error():
    text = 'a\nb "\\q"\n'
    with pytest.raises(wat_lex.WatError) as caught:
        wat_lex.tokens(text)
    error = caught.value
    assert isinstance(error, ValueError)
    assert (error.message, error.offset, error.line, error.column, error.excerpt) == ("invalid string escape 'q'", 6, 2, 5, EXCERPT)
    assert str(error) == "invalid string escape 'q': line 2 column 5"


def test_errors_go_on_after_each_error():
    text = 'a \x01 "\\q" b "\\w\n(; c (; ;) (; \x02'
    assert [(error.message, error.offset) for error in wat_lex.errors(text)] == [
        ("unexpected character '\\u{1}'", 2), ("invalid string escape 'q'", 6), ("invalid string escape 'w'", 13),
        ("unterminated block comment", 15), ("unterminated block comment", 26), ("unexpected character '\\u{2}'", 29),
    ]  # fmt: skip


def test_no_errors():
    assert wat_lex.errors("") == [] and wat_lex.errors("(func)" * 10000) == []


def test_an_excerpt_is_what_the_library_prints_at_an_error(mutants):
    compared = 0
    for text in mutants[:2000]:
        read = _library.Text(text)
        _, at, why = _library.filled(_library.lib.wat_fill, "struct wat_token", read, (False, False))
        if why != _library.lib.WAT_END:
            compared += 1
            printed = _library.written(_library.lib.wat_fault, read.pointer, read.length, at, False, False)
            assert wat_lex.errors(text)[0].excerpt.encode() == printed
    assert compared > 100


def test_time_of_many_unclosed_comments():
    """A loop that reads the rest of the text at each of the 50,000 comments would take minutes."""
    begun = time.process_time()
    found = wat_lex.errors("(; a " * 50000)
    assert len(found) == 50000 and time.process_time() - begun < 30


def test_pickled_errors_have_no_text():
    with pytest.raises(wat_lex.LexError) as caught:
        wat_lex.tokens('a "\\q"' + " " * 100000)
    pickled = pickle.dumps(caught.value)
    error = pickle.loads(pickled)
    assert len(pickled) < 200000
    for name in ("message", "offset", "line", "column", "fault", "excerpt"):
        assert getattr(error, name) == getattr(caught.value, name)


def test_codes_are_those_of_the_header():
    header = (TOP / "include/wat.h").read_text(encoding="utf-8")
    kinds, faults = (re.search(rf"enum wat_{name}_code {{(.*?)}};", header, re.S)[1] for name in ("kind", "fault"))
    assert re.findall(r"WAT_(\w+) = (\d+)", kinds)[1:] == [(kind.name, str(kind.value)) for kind in wat_lex.Kind]
    assert re.findall(r"WAT_(\w+) = (\d+)", faults)[1:13] == [(fault.name, str(fault.value)) for fault in Fault]
    names = re.search(r"wat_kind_name.*?names\[\] = {(.*?)};", header, re.S)[1]
    assert re.findall(r'"(\w*)"', names) == list(wat_lex.KIND_NAMES[:16])
