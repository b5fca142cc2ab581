"""A verified lexer, compiler and formatter of the WebAssembly text format, with tokens as NumPy arrays.

A text is `str` or `bytes`; all offsets and lengths are in bytes of its UTF-8 encoding. `bytes` that are not UTF-8 raise `UnicodeDecodeError`, a text
of more than 4,294,967,295 bytes raises `ValueError`, and a failed allocation raises `MemoryError`. The functions keep no state, and release the
global interpreter lock while the library reads a text, so that threads run in parallel.

`allow_confusing` accepts, in comments and strings, nine characters that change the direction or the shaping of displayed text. `strict_underscores`
rejects two adjacent underscores in the escape `\\u{..}`.
"""
import enum

import numpy

from wat_lex._errors import CompileError, Fault, LexError, WatError, compile_error, error_at, find_errors, lex_errors
from wat_lex._library import TYPES, Text, called, elements, filled, lib

__all__ = ["KIND_NAMES", "ROW", "TOKEN", "CompileError", "Fault", "Kind", "LexError", "WatError", "check", "compile", "errors", "format", "line_col",
           "significant", "tokens"]  # fmt: skip

TOKEN = TYPES["struct wat_token"]
ROW = TYPES["struct wat_row"]


class Kind(enum.IntEnum):
    """The kinds of tokens, with the codes of `wat.h`. `OPENS_AT` occurs in `significant` only."""

    LINE_COMMENT = 1
    BLOCK_COMMENT = 2
    WHITESPACE = 3
    LPAREN = 4
    RPAREN = 5
    STRING = 6
    ID = 7
    KEYWORD = 8
    ANNOTATION = 9
    RESERVED = 10
    INTEGER = 11
    INF = 12
    NAN = 13
    NAN_PAYLOAD = 14
    FLOAT = 15
    OPENS_AT = 16


# The names of kinds that the program prints, by code.
KIND_NAMES = ("", "LineComment", "BlockComment", "Whitespace", "LParen", "RParen", "String", "Id", "Keyword", "Annotation", "Reserved", "Integer",
              "Float", "Float", "Float", "Float", "LParen")  # fmt: skip


def tokens(text, *, allow_confusing=False, strict_underscores=False, partial=False):
    """Returns the tokens of a text, whitespace and comments included, as an array of `TOKEN`: `offset`, `length`, `kind`, `sign`, `has_underscores`
    and `hex`. Raises `LexError` at a lexical error; if `partial` is true, it returns the tokens before the error instead."""
    return records_of(lib.wat_fill, "struct wat_token", Text(text), (allow_confusing, strict_underscores), partial)


def significant(text, *, allow_confusing=False, strict_underscores=False, partial=False):
    """Returns the tokens of a text except whitespace and comments, as an array of `ROW`, which is `TOKEN` with `link`: 1 plus the index of the `)`
    that closes the innermost group open after the token, or 0. A `(` before an annotation has the kind `OPENS_AT`. Errors are as in `tokens`."""
    rows = records_of(lib.wat_rows, "struct wat_row", Text(text), (allow_confusing, strict_underscores), partial)
    if len(rows):
        lib.wat_links(elements(rows, "struct wat_row"), len(rows))
    return rows


def records_of(function, struct, text, settings, partial):
    """Returns the records that a function writes, or raises the `LexError` at which it stops, unless `partial` is true."""
    records, at, why = filled(function, struct, text, tuple(map(bool, settings)))
    if why != lib.WAT_END and not partial:
        raise error_at(text, at, tuple(map(bool, settings)))
    return records


def errors(text, *, allow_confusing=False, strict_underscores=False):
    """Returns a list of all lexical errors of a text, as instances of `LexError`. After an error it continues at the end of the character, of the
    `(;`, of the comment, or of the string, or of its line."""
    read = Text(text)
    return lex_errors(read, find_errors(read, (bool(allow_confusing), bool(strict_underscores))))


def line_col(text, offsets):
    """Returns the lines and the columns of bytes, as two arrays with the shape of `offsets`. Both start at 1, and columns are in bytes. An offset may
    be that of the end of the text; `IndexError` is raised for one outside of the text."""
    read, asked = Text(text), numpy.asarray(offsets)
    if asked.dtype.kind not in "iu" and asked.size:
        raise TypeError(f"offsets must be integers, not {asked.dtype}")
    if asked.size and (asked.min() < 0 or asked.max() > read.length):
        raise IndexError(f"an offset is not between 0 and {read.length}")
    return read.positions(asked.astype(numpy.intp))


def compile(text, *, names=True):
    """Returns the binary of a module of WebAssembly 2.0, which is not validated. If `names` is true, it has a section of the module's names, by
    identifiers and annotations `(@name ..)`, and the custom sections of its annotations `(@custom ..)`. Raises `CompileError` if the text is not a
    module, or if `names` is true and such an annotation has other contents or is where none may be. If `names` is false, these annotations are skipped.
    Confusing characters are always allowed, and underscores are always strict."""
    read = Text(text)
    result, binary = called(lib.wat_compile, read.pointer, read.length, bool(names), capacity=read.length + 256)
    if result.status != lib.WAT_GIVEN:
        raise compile_error(read, bool(names))
    return binary


def check(text, *, names=True):
    """Returns the `CompileError` that `compile` raises for a text and the same `names`, or `None` if it raises none."""
    return compile_error(Text(text), bool(names))


def format(text, *, allow_confusing=False, strict_underscores=False):
    """Returns the formatted text, as `str` if the text is `str`, otherwise as `bytes`. Only the whitespace between tokens differs. Raises
    `LexError` at a lexical error, and `ValueError` if the formatted text has more than 4,294,967,295 bytes."""
    read, settings = Text(text), (bool(allow_confusing), bool(strict_underscores))
    result, formatted = called(lib.wat_format, read.pointer, read.length, *settings, capacity=read.length + read.length // 4 + 256)
    if result.status == lib.WAT_OTHER:
        raise ValueError("the formatted text is too long")
    if result.status != lib.WAT_GIVEN:
        raise error_at(read, filled(lib.wat_fill, "struct wat_token", read, settings)[1], settings)
    return formatted.decode("utf-8") if isinstance(text, str) else formatted
