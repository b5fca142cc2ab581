"""The exceptions of the package, and the loop over the lexical errors of a text."""
import enum

import numpy

from wat_lex._library import called, ffi, lib, written


class Fault(enum.IntEnum):
    """The kinds of lexical errors, with the codes of `wat.h`."""

    DANGLING_BLOCK_COMMENT = 101
    UNEXPECTED = 102
    INVALID_STRING_ELEMENT = 103
    INVALID_STRING_ESCAPE = 104
    INVALID_HEX_DIGIT = 105
    INVALID_DIGIT = 106
    EXPECTED = 107
    UNEXPECTED_EOF = 108
    NUMBER_TOO_BIG = 109
    INVALID_UNICODE_VALUE = 110
    LONE_UNDERSCORE = 111
    CONFUSING_UNICODE = 112


class WatError(ValueError):
    """An error at an offset of a text: `message`, `offset` in bytes, `line` and `column`, which start at 1, with the column in bytes."""

    def __init__(self, message, offset, line, column, text):
        super().__init__(message, offset, line, column, text)
        self.message, self.offset, self.line, self.column = message, offset, line, column
        self._text = text

    @property
    def excerpt(self):
        """The error as the program prints it: message, location, and the line with a marker. Line and column are as in the printed line."""
        return self._text if isinstance(self._text, str) else self._text.excerpt(self.offset, self.message)

    def __str__(self):
        return f"{self.message}: line {self.line} column {self.column}"

    def __reduce__(self):
        return type(self), (*self.args[:-1], self.excerpt), {}


class LexError(WatError):
    """A lexical error; `fault` is its kind."""

    def __init__(self, message, offset, line, column, fault, text):
        super().__init__(message, offset, line, column, text)
        self.args = message, offset, line, column, fault, text
        self.fault = fault


class CompileError(WatError):
    """The error of a text that is not a module: a lexical error, or a syntax error at a token of `length` bytes, or at the end of the text."""

    def __init__(self, message, offset, line, column, length, text):
        super().__init__(message, offset, line, column, text)
        self.args = message, offset, line, column, length, text
        self.length = length


def compile_error(text, names):
    """Returns the error of a text that is not a module, or `None` if it is one."""
    result, message = called(lib.wat_check, text.pointer, text.length, names)
    if result.status == lib.WAT_ABSENT:
        return None
    line, column = text.positions(numpy.intp(result.offset))
    return CompileError(message.decode("utf-8"), result.offset, int(line), int(column), result.len, text)


def lex_errors(text, found):
    """Returns the exceptions for a list of errors, each a result of `parts`."""
    lines, columns = text.positions(numpy.array([offset for offset, *_ in found], numpy.intp))
    return [
        LexError(message_of(fault, *characters), offset, int(line), int(column), Fault(fault), text)
        for (offset, fault, *characters), line, column in zip(found, lines, columns)
    ]


def message_of(fault, found, wanted):
    """Returns the message of an error, from the members of a `struct wat_found`."""
    return written(lib.wat_message, fault, found, wanted).decode("utf-8")


def parts(found):
    """Returns the offset of an error, its code, and the two characters for its message. They stay after the `struct wat_found` is freed."""
    return found.token.offset, found.fault, found.found, found.wanted


def error_at(text, at, settings):
    """Returns the lexical error that the library finds at an offset."""
    return lex_errors(text, [parts(lib.wat_scan(text.pointer, text.length, at, *settings))])[0]


def first_error(text, at, settings, tokens):
    """Returns the first offset, from an offset on, at which the library finds a lexical error, or the text's length if there is none. Tokens before
    it are written to a buffer."""
    why = lib.WAT_FULL
    while why == lib.WAT_FULL:
        result = lib.wat_fill(text.pointer, text.length, at, *settings, tokens, len(tokens))
        at, why = result.at, result.why
    return at


def find_errors(text, settings):
    """Returns all lexical errors, as a list of results of `parts`. From the first unclosed comment on, each token is found by `wat_next`, whose time
    is bounded even if many comments are unclosed."""
    tokens, marks = ffi.new("struct wat_token[]", 1024), ffi.new("uint32_t[]", lib.WAT_MARKS)
    errors, is_unclosed = [], False
    at = first_error(text, 0, settings, tokens)
    while at < text.length:
        step = lib.wat_next(text.pointer, text.length, at, *settings, marks, lib.WAT_MARKS)
        if step.found.fault:
            errors.append(parts(step.found))
        is_unclosed = is_unclosed or step.found.fault == lib.WAT_DANGLING_BLOCK_COMMENT
        at = step.next if is_unclosed else first_error(text, step.next, settings, tokens)
    return errors
