import enum
from typing import Any, Final, TypeVar

import numpy
import numpy.typing

__all__ = ["KIND_NAMES", "ROW", "TOKEN", "CompileError", "Fault", "Kind", "LexError", "WatError", "check", "compile", "errors", "format", "line_col",
           "significant", "tokens"]  # fmt: skip

_Text = TypeVar("_Text", str, bytes)

TOKEN: Final[numpy.dtype[numpy.void]]
ROW: Final[numpy.dtype[numpy.void]]
KIND_NAMES: Final[tuple[str, ...]]

class Kind(enum.IntEnum):
    LINE_COMMENT = 1
    BLOCK_COMMENT = 2
    WHITESPACE = 3
    LPAREN = 4
    RPAREN = 5
    STRING = 6
    ID = 7
    KEYWORD = 8
    ANNOTATION = 9
    RESERVED = 10
    INTEGER = 11
    INF = 12
    NAN = 13
    NAN_PAYLOAD = 14
    FLOAT = 15
    OPENS_AT = 16

class Fault(enum.IntEnum):
    DANGLING_BLOCK_COMMENT = 101
    UNEXPECTED = 102
    INVALID_STRING_ELEMENT = 103
    INVALID_STRING_ESCAPE = 104
    INVALID_HEX_DIGIT = 105
    INVALID_DIGIT = 106
    EXPECTED = 107
    UNEXPECTED_EOF = 108
    NUMBER_TOO_BIG = 109
    INVALID_UNICODE_VALUE = 110
    LONE_UNDERSCORE = 111
    CONFUSING_UNICODE = 112

class WatError(ValueError):
    message: str
    offset: int
    line: int
    column: int
    def __init__(self, message: str, offset: int, line: int, column: int, text: Any) -> None: ...
    @property
    def excerpt(self) -> str: ...

class LexError(WatError):
    fault: Fault
    def __init__(self, message: str, offset: int, line: int, column: int, fault: Fault, text: Any) -> None: ...

class CompileError(WatError):
    length: int
    def __init__(self, message: str, offset: int, line: int, column: int, length: int, text: Any) -> None: ...

def tokens(
    text: str | bytes, *, allow_confusing: bool = False, strict_underscores: bool = False, partial: bool = False
) -> numpy.ndarray[Any, numpy.dtype[numpy.void]]: ...
def significant(
    text: str | bytes, *, allow_confusing: bool = False, strict_underscores: bool = False, partial: bool = False
) -> numpy.ndarray[Any, numpy.dtype[numpy.void]]: ...
def errors(text: str | bytes, *, allow_confusing: bool = False, strict_underscores: bool = False) -> list[LexError]: ...
def line_col(
    text: str | bytes, offsets: numpy.typing.ArrayLike
) -> tuple[numpy.typing.NDArray[numpy.intp], numpy.typing.NDArray[numpy.intp]]: ...
def compile(text: str | bytes, *, names: bool = True) -> bytes: ...
def check(text: str | bytes, *, names: bool = True) -> CompileError | None: ...
def format(text: _Text, *, allow_confusing: bool = False, strict_underscores: bool = False) -> _Text: ...
