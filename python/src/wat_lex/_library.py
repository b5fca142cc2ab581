"""The shared library, the NumPy types of its structs, and texts as it reads them."""
import pathlib
import sys

import numpy

from wat_lex._declarations import ffi

NAME = {"darwin": "libwat.dylib", "win32": "wat.dll"}.get(sys.platform, "libwat.so")
lib = ffi.dlopen(str(pathlib.Path(__file__).with_name(NAME)))
if lib.wat_version() != lib.WAT_VERSION:
    raise ImportError(f"{NAME} has version {lib.wat_version()}, but wat_lex was built for {lib.WAT_VERSION}")

MOST_BYTES = 2**32 - 1
# The number of records that are set to zero, as the library requires, and then written while they are in the processor's cache.
CHUNK = 1 << 14
# The names of members in arrays, if they are not those of C.
NAMES = {"len": "length", "code": "kind"}
FORMATS = {"size_t": numpy.uintp, "uint32_t": numpy.uint32, "uint8_t": numpy.uint8, "_Bool": numpy.bool_}


def members(struct, start=0):
    """Yields the name, format and offset of each member of a struct, with the members of a nested struct in its stead."""
    for name, member in struct.fields:
        if member.type.kind == "struct":
            yield from members(member.type, start + member.offset)
        else:
            yield NAMES.get(name, name), FORMATS[member.type.cname], start + member.offset


def record_type(struct):
    """Returns the NumPy type of a struct of the library."""
    names, formats, offsets = zip(*members(ffi.typeof(struct)))
    return numpy.dtype({"names": names, "formats": formats, "offsets": offsets, "itemsize": ffi.sizeof(struct)})


TYPES = {struct: record_type(struct) for struct in ("struct wat_token", "struct wat_row")}


def elements(array, item, start=0):
    """Returns a pointer to an element of an array, which must exist as long as the pointer is used."""
    return ffi.from_buffer(f"{item}[]", array, require_writable=True) + start


class Text:
    """A text that the library can read: `data`, its bytes in UTF-8, and `pointer` and `length`, the arguments for C."""

    def __init__(self, text):
        if not isinstance(text, (str, bytes)):
            raise TypeError(f"the text must be str or bytes, not {type(text).__name__}")
        self.data = text.encode("utf-8") if isinstance(text, str) else text
        self.pointer, self.length = ffi.from_buffer("uint8_t[]", self.data), len(self.data)
        if self.length > MOST_BYTES:
            raise ValueError(f"the text has more than {MOST_BYTES:,} bytes")
        if isinstance(text, bytes) and not lib.wat_is_text(self.pointer, self.length):
            text.decode("utf-8")  # raises UnicodeDecodeError, which has the offset
            raise ValueError("the text is not UTF-8")

    def line_starts(self):
        """Returns the offsets at which lines begin, in ascending order: 0, and the offset after each LF."""
        count = lib.wat_line_feeds(self.pointer, self.length, ffi.new("size_t[1]"), 0)
        starts = numpy.zeros(count + 1, numpy.intp)
        lib.wat_line_feeds(self.pointer, self.length, elements(starts, "size_t", 1), count)
        starts[1:] += 1
        return starts

    def positions(self, offsets):
        """Returns the lines and columns of offsets, which are an array. Both start at 1, and columns are in bytes."""
        starts = self.line_starts()
        lines = numpy.searchsorted(starts, offsets, side="right")
        return lines, offsets - starts[lines - 1] + 1

    def excerpt(self, offset, message):
        """Returns an error as the program prints it: message, location, and the line with a marker."""
        data, file = message.encode("utf-8"), ffi.new("uint8_t[1]")
        return written(lib.wat_print, self.pointer, self.length, offset, ffi.from_buffer("uint8_t[]", data), len(data), file, 0).decode("utf-8")


def called(function, *arguments, capacity=256):
    """Returns the result of a function that writes bytes, and these bytes. The function is called again if the buffer of the first call, of a given
    capacity, is too small. Raises `MemoryError` if an allocation fails."""
    result = None
    while result is None or result.needed > len(out):
        out = numpy.zeros(result.needed if result else capacity, numpy.uint8)
        result = function(*arguments, elements(out, "uint8_t"), len(out))
    if result.status == lib.WAT_NO_MEMORY:
        raise MemoryError
    return result, out[: result.needed].tobytes()


def written(function, *arguments):
    """Returns the bytes that a function writes. Raises `ValueError` if there is no result, and `MemoryError` if an allocation fails."""
    result, data = called(function, *arguments)
    if result.status != lib.WAT_GIVEN:
        raise ValueError(f"the library has no result: status {result.status}")
    return data


def filled(function, struct, text, settings):
    """Returns an array of all records that `wat_fill` or `wat_rows` writes, and the offset and the reason at which the function stopped. It writes to
    the array's memory, a chunk in each call. The memory is initially enough for a token every 2 bytes, and pages without tokens are never used."""
    chunk, size = min(CHUNK, text.length + 1), ffi.sizeof(struct)
    memory = numpy.empty((text.length // 2 + chunk) * size, numpy.uint8)
    count, at, why = 0, 0, lib.WAT_FULL
    while why == lib.WAT_FULL:
        if (count + chunk) * size > len(memory):
            memory.resize((text.length + chunk) * size, refcheck=False)
        memory[count * size : (count + chunk) * size] = 0
        result = function(text.pointer, text.length, at, *settings, elements(memory, struct, count), chunk)
        count, at, why = count + result.count, result.at, result.why
    memory.resize(count * size, refcheck=False)
    return memory.view(TYPES[struct]), at, why
