"""The name sections of binary modules, for compare_modules.py, and their subsections."""
from module_sections import Reader

LOCALS = 2


def split(data):
    """Returns a module without its name section, and the content of that section after its name; empty if there is none."""
    reader, made, names = Reader(data, 8), data[:8], b""
    while not reader.is_at_end():
        at = reader.at
        number, content = reader.byte(), Reader(reader.string())
        if number == 0 and content.string() == b"name":
            names = content.data[content.at :]
        else:
            made += data[at : reader.at]
    return made, names


def subsections(names):
    """Returns the ids of the subsections in their order, each with its content."""
    reader, made = Reader(names), []
    while not reader.is_at_end():
        made.append((reader.byte(), reader.string()))
    return made


def locals_of(content):
    """Returns the index of each function of an indirect name map, with the indices and the names of its locals."""
    reader = Reader(content)
    return reader.many(lambda: (reader.number(), reader.many(lambda: (reader.number(), reader.string()))))


def are_shifted(ours, theirs):
    """Returns `True` if two indirect name maps differ only in that all indices of a function's locals are greater in the first by some number."""
    def is_shift(one, other):
        names, others = [name for _, name in one[1]], [name for _, name in other[1]]
        shifts = {index - number for (index, _), (number, _) in zip(one[1], other[1])}
        return one[0] == other[0] and names == others and len(shifts) == 1 and min(shifts) >= 0
    ours, theirs = locals_of(ours), locals_of(theirs)
    return len(ours) == len(theirs) and all(is_shift(one, other) for one, other in zip(ours, theirs))
