"""The sections of binary modules, for compare_modules.py: their bytes, and their meaning regardless of the encoding."""

NAMES = dict(enumerate(["custom", "types", "imports", "functions", "tables", "memories", "globals", "exports", "start", "elements", "code", "data", "data count", "order"]))
TYPES, DATA_COUNT, ORDER = 1, 12, 13
EMPTY, FUNCREF, END = 0x40, 0x70, 0x0B
# The number of integers after an instruction whose integers are unsigned, by opcode, and by the integer after 0xFC or 0xFD; otherwise 0.
COUNTS = {
    **{0x0C: 1, 0x0D: 1, 0x10: 1, 0x11: 2, 0x3F: 1, 0x40: 1, 0xD0: 1, 0xD2: 1},
    **dict.fromkeys(range(0x20, 0x27), 1),
    **dict.fromkeys(range(0x28, 0x3F), 2),
}
COUNTS_AFTER_FC = {8: 2, 9: 1, 10: 2, 11: 1, 12: 2, 13: 1, 14: 2, 15: 1, 16: 1, 17: 1}
COUNTS_AFTER_FD = dict.fromkeys([*range(12), *range(84, 94)], 2)
AFTER_PREFIX = {0xFC: COUNTS_AFTER_FC, 0xFD: COUNTS_AFTER_FD}
# The number of bytes after an instruction and its integers, by the integer after 0xFD: of v128.const and i8x16.shuffle, and the index of a lane.
BYTES_AFTER_FD = {12: 16, 13: 16, **dict.fromkeys([*range(21, 35), *range(84, 92)], 1)}
KNOWN = {*range(0x12), 0x1A, 0x1B, 0x1C, *range(0x20, 0x27), *range(0x28, 0xC5), 0xD0, 0xD1, 0xD2, 0xFC, 0xFD} - set(range(0x06, 0x0B))


class Unknown(Exception):
    """An error at bytes that are not parsed: an unknown opcode, an unknown kind of type or element, or a body of another size."""


class Reader:
    """A reader of bytes that begins at an offset."""

    def __init__(self, data, at=0):
        self.data, self.at = data, at

    def byte(self):
        self.at += 1
        return self.data[self.at - 1]

    def take(self, count):
        self.at += count
        return self.data[self.at - count : self.at]

    def number(self):
        """Reads an unsigned LEB128 integer."""
        value = shift = 0
        while True:
            byte = self.byte()
            value |= (byte & 0x7F) << shift
            shift += 7
            if byte < 0x80:
                return value

    def string(self):
        return self.take(self.number())

    def many(self, one):
        """Reads a vector."""
        return tuple(one() for _ in range(self.number()))

    def is_at_end(self):
        return self.at >= len(self.data)


def sections(data):
    """Returns the id and the bytes of each section, except sections of names. Bytes that are not a module are returned as one section with id 0."""
    reader, made = Reader(data, 8), []
    try:
        while not reader.is_at_end():
            number, content = reader.byte(), reader.string()
            if number != 0 or Reader(content).string() != b"name":
                made.append((number, content))
    except IndexError:
        return [(0, data)]
    return made


class Expressions(Reader):
    """A reader of a section with instructions, which knows the types of the module."""

    def __init__(self, data, types):
        super().__init__(data)
        self.types = types

    def block_type(self):
        """Reads a block type as the bytes of its parameters and of its results."""
        at = self.at
        number = self.number()
        if self.at > at + 1 or number < EMPTY:
            return self.types[number] if number < len(self.types) else number
        return b"\0", b"\0" if number == EMPTY else bytes([1, number])

    def rest(self, opcode):
        """Reads the immediates after an opcode."""
        if opcode in (0x02, 0x03, 0x04):
            return self.block_type()
        if opcode in (0x41, 0x42):
            return self.integer()
        if opcode in (0x43, 0x44):
            return self.take(4 if opcode == 0x43 else 8)
        if opcode == 0x0E:
            return self.many(self.number), self.number()
        if opcode == 0x1C:
            return self.many(self.byte)
        number = self.number() if opcode in AFTER_PREFIX else None
        count = COUNTS.get(opcode, 0) if number is None else AFTER_PREFIX[opcode].get(number, 0)
        rest = (number, *(self.number() for _ in range(count)))
        return rest + (self.take(BYTES_AFTER_FD.get(number, 0)),) if opcode == 0xFD else rest

    def integer(self):
        """Reads a signed LEB128 integer, and returns its bytes."""
        at = self.at
        self.number()
        return self.data[at : self.at]

    def instructions(self):
        """Reads instructions up to the `end` that closes them all."""
        made, depth = [], 1
        while depth:
            opcode = self.byte()
            if opcode not in KNOWN:
                raise Unknown
            depth += (opcode in (0x02, 0x03, 0x04)) - (opcode == END)
            made.append((opcode, self.rest(opcode)))
        return tuple(made)

    def a_global(self):
        return self.take(2), self.instructions()

    def element_segment(self):
        """Reads the mode, the table and the offset of an element segment, its type, and its elements as instructions."""
        flags = self.number()
        mode = ("active", "passive", "active", "declarative")[flags & 3]
        table = self.number() if flags & 3 == 2 else 0
        offset = self.instructions() if mode == "active" else None
        kind = self.byte() if flags & 3 else FUNCREF if flags & 4 else 0
        if flags & 4:
            return mode, table, offset, kind, self.many(self.instructions)
        if kind:
            raise Unknown
        return mode, table, offset, FUNCREF, self.many(lambda: ((0xD2, self.rest(0xD2)), (END, self.rest(END))))

    def data_segment(self):
        flags = self.number()
        memory = self.number() if flags == 2 else 0
        return flags == 1, memory, None if flags == 1 else self.instructions(), self.string()

    def body(self):
        """Reads the local variables and the instructions of a function."""
        size = self.number()
        end = self.at + size
        variables = self.many(lambda: (self.number(), self.byte()))
        made = variables, self.instructions()
        if self.at != end:
            raise Unknown
        return made


def types_of(found):
    """Returns the encoded parameters and results of each type, both with their counts."""
    reader = Reader(found.get(TYPES, b"\0"))
    made = []
    for _ in range(reader.number()):
        if reader.byte() != 0x60:
            raise Unknown
        sides = []
        for _ in range(2):
            at = reader.at
            reader.string()
            sides.append(reader.data[at : reader.at])
        made.append(tuple(sides))
    return made


def said(number, content, types):
    """Returns the meaning of a section: blocks by their types, elements by their instructions. Returns the bytes if they cannot be parsed."""
    reader = Expressions(content, types)
    one = {6: reader.a_global, 9: reader.element_segment, 10: reader.body, 11: reader.data_segment}.get(number)
    try:
        made = reader.many(one) if one else content
        return made if not one or reader.is_at_end() else content
    except (Unknown, IndexError):
        return content


def contents(data):
    """Returns the bytes of each section by id, and the order of the sections."""
    found = sections(data)
    return {**dict(found), ORDER: [number for number, _ in found if number != DATA_COUNT]}


def type_count(data):
    """Returns the number of types of a module."""
    return Reader(contents(data).get(TYPES, b"\0")).number()


def meaning(data):
    """Returns the meaning of each section by id, and the order of the sections."""
    found = contents(data)
    try:
        types = types_of(found)
    except (Unknown, IndexError):
        types = []
    return {number: said(number, content, types) for number, content in found.items()}


def differences(one, other):
    """Returns the ids of the sections that are not equal."""
    return {number for number in one.keys() | other.keys() if one.get(number) != other.get(number)}


def agreement(one, other):
    """Returns how two results agree, and the ids of the sections that differ. Sections of names are ignored."""
    if one is None or other is None:
        return ("both refuse" if one is other else "refused by one"), set()
    spelled = differences(contents(one), contents(other))
    if not spelled:
        return "the same bytes", spelled
    said = differences(meaning(one), meaning(other))
    if said == {DATA_COUNT}:
        return "the same but for a data count", said
    return ("another", said) if said else ("the same, spelled otherwise", spelled)
