"""Random modules as lists of tokens, for compare_modules.py.

Texts on which `wat2wasm` and the standard's grammar disagree are not generated: an `else` or an `item` with nothing after it, a `select` with empty
lists, and a type use outside of functions. Neither are hexadecimal floats below the least normal one, as `wat2wasm` 1.0.32 does not round these to
the nearest. `memory.init` and `data.drop` are generated in functions only, as the standard requires a data count only for these.
"""
import pathlib
import random
import re

from module_tokens import has_empty_else, has_empty_select

GAPS = [" ", "\n", "\t", " (; a comment ;) ", " ;; a comment\n", "  "]
TYPES = ["i32", "i64", "f32", "f64"]
REFERENCES = ["funcref", "externref"]
ROW = re.compile(r'row!\(\s*"([^"]+)",\s*0x[0-9A-F]+,\s*Immediate::(\w+)', re.S)
VECTOR_ROW = re.compile(r'prefixed!\(\s*"([^"]+)",\s*0xFD,\s*\d+,\s*Immediate::(\w+)', re.S)
TABLE = pathlib.Path(__file__).resolve().parents[2] / "crates/wat_module_ast/src/table.rt"

# The forms that a program may lack, by name: the keywords of their instructions, each with its kind of immediate.
FORMS = {
    "saturating": [(f"{to}.trunc_sat_{of}_{sign}", "No") for to in TYPES[:2] for of in TYPES[2:] for sign in "su"],
    "memory": [("memory.copy", "No"), ("memory.fill", "No"), ("memory.init", "Data"), ("data.drop", "Data")],
    "tables": [
        *((f"table.{word}", "Table") for word in ("get", "set", "size", "grow", "fill")),
        ("table.copy", "Tables"), ("table.init", "TableElem"), ("elem.drop", "Elem"),
    ],
    "references": [("ref.null", "Heap"), ("ref.is_null", "No"), ("ref.func", "Func")],
    "reference-types": [],
    "typed-select": [("select", "Results")],
    "vectors": VECTOR_ROW.findall(TABLE.read_text(encoding="utf-8")),
    "bare": [],
}
OFTEN = 3
# The bounds of random table indices, of which one in 61 is above 64: `wat2wasm` 1.0.32 writes indices from 64 on as signed integers.
TABLES = [64] * 60 + [200]


def rows_of(forms):
    """Returns the keywords of plain instructions, each with its kind of immediate. Those of the forms occur `OFTEN` times, to be chosen more often."""
    others = {row for rows in FORMS.values() for row in rows}
    words = {word for word, _ in others if word != "select"}
    rows = [row for row in ROW.findall(TABLE.read_text(encoding="utf-8")) if row[0] not in words]
    return rows + [row for form in FORMS if form in forms for row in FORMS[form] * OFTEN]


class Choices(random.Random):
    """A source of random choices, with the forms and the plain instructions to generate."""

    forms, rows = frozenset(), []

    def value_type(self, most=4):
        """Returns one of the first `most` number types, or a reference type or the vector type if the forms include them."""
        if "reference-types" in self.forms and self.random() < 0.25:
            return self.choice(REFERENCES)
        if "vectors" in self.forms and self.random() < 0.2:
            return "v128"
        return self.choice(TYPES[:most])

    def index(self, names):
        """Returns a random index of one of these names: its integer, or the name if it has one and this is its first occurrence."""
        at = self.randrange(len(names))
        name = names[at]
        if name is not None and names.index(name) == at and self.random() < 0.6:
            return name
        return self.choice([str(at), hex(at), f"0{at}"])

    def any_index(self, names, bound=200):
        """Returns a random index of one of these names, or any integer below `bound`."""
        return self.index(names) if names and self.random() < 0.8 else str(self.randrange(bound))


def choices(seed, forms):
    """Returns the source of random choices for a seed and forms."""
    rng = Choices(seed)
    rng.forms, rng.rows = frozenset(forms), rows_of(forms)
    return rng


def integer(rng, bits):
    """Returns an integer literal of at most `bits` bits, with or without a sign."""
    if rng.random() < 0.3:
        size = rng.choice([0, 1, 63, 64, 127, 128, 2 ** (bits - 1) - 1])
    else:
        size = rng.randrange(2 ** rng.randrange(1, bits))
    kind = rng.randrange(5)
    if kind == 0:
        return "-" + rng.choice([str(size), hex(size)])
    if kind == 1:
        return "+" + str(min(size, 2 ** (bits - 1) - 1))
    if kind == 2:
        return hex(rng.randrange(2 ** bits))
    if kind == 3 and size > 9:
        return f"{str(size)[0]}_{str(size)[1:]}"
    return str(size)


def floating(rng, digits, greatest):
    """Returns a literal of a floating-point format with significands of `digits` bits, whose largest numbers have the exponent `greatest`."""
    sign = rng.choice(["", "", "-", "+"])
    kind = rng.randrange(8)
    if kind == 0:
        payload = rng.choice([1, 2 ** (digits - 2), 2 ** (digits - 1) - 1, rng.randrange(1, 2 ** (digits - 1))])
        return sign + rng.choice(["inf", "nan", f"nan:0x{payload:x}"])
    if kind == 1:
        return sign + str(rng.choice([0, 2**digits + 1, 2**64, 10**rng.randrange(39), rng.randrange(2**rng.randrange(1, 90))]))
    if kind < 5:
        size = str(rng.randrange(10 ** rng.randrange(1, 25)))
        exponent = rng.choice(["", f"e{rng.randrange(-20, 14)}", f"E-{rng.randrange(greatest // 3)}", f"e+{rng.randrange(greatest // 4 - 24)}"])
        point = rng.choice(["", ".", f".{rng.randrange(10 ** 9):0{rng.randrange(1, 20)}}"])
        return sign + (f"{size[0]}_{size[1:]}" if len(size) > 5 else size) + point + exponent
    # Ties, and numbers close to one.
    twice = 2 ** digits + rng.choice([0, 1, rng.randrange(2 ** digits)])
    more = rng.choice(["", ".", ".8", ".000000000000000000001", ".fffffffffffffffff"])
    exponent = rng.choice([0, -digits, 1 - greatest - digits, rng.randrange(1 - greatest - digits, greatest - digits)])
    return f"{sign}0x{twice:x}{more}" + (f"p{exponent}" if exponent or rng.random() < 0.5 else "")


def memory_argument(rng):
    """Returns a memory argument, of which each part is optional."""
    size = rng.choice([0, 1, 127, 128, 2 ** 32 - 1, rng.randrange(10, 2 ** 32)])
    offset = rng.choice([str(size), hex(size), f"0_{size}", f"0x0_{size:X}"])
    align = 2 ** rng.choice([0, 1, 2, 3, rng.randrange(32)])
    return rng.choice([[], [f"offset={offset}"]]) + rng.choice([[], [f"align={rng.choice([str(align), hex(align)])}"]])


def lane_index(rng):
    """Returns the index of a lane."""
    at = rng.choice([0, 1, 15, 16, 127, 128, 255, rng.randrange(256)])
    return rng.choice([str(at), hex(at), f"0{at}"])


def vector(rng):
    """Returns the shape and the lanes of a vector."""
    bits, shape = rng.choice([(8, "i8x16"), (16, "i16x8"), (32, "i32x4"), (64, "i64x2"), (32, "f32x4"), (64, "f64x2")])
    if shape[0] == "i":
        return [shape] + [integer(rng, bits) for _ in range(128 // bits)]
    return [shape] + [floating(rng, *((24, 127) if bits == 32 else (53, 1023))) for _ in range(128 // bits)]


def selected(rng):
    """Returns the types of a `select`, in groups."""
    groups = [[rng.value_type()]] + rng.choice([[], [], [], [[]], [[], [rng.value_type()]]])
    if rng.random() < 0.1:
        groups[0].append(rng.value_type())
    rng.shuffle(groups)
    return [token for types in groups for token in ["(", "result"] + types + [")"]]


class Body:
    """A generator of instructions under labels, as lists of tokens."""

    def __init__(self, rng, names, variables, types=None):
        """Creates a generator. Without `types` no instruction has a type use, which `wat2wasm` finds in functions only, or a data segment's index."""
        self.rng, self.names, self.variables, self.types = rng, names, variables, types
        self.labels = [None]

    def plain(self):
        """Returns a plain instruction with its immediate."""
        word, kind = self.rng.choice(self.rng.rows)
        made = self.immediate(kind)
        return ["nop"] if made is None else [word] + made

    def immediate(self, kind):
        """Returns the tokens of an immediate of a kind, or `None` if there is nothing to which it could refer."""
        rng, names = self.rng, self.names
        if kind in ("Local", "Func"):
            known = self.variables if kind == "Local" else names["func"]
            return [rng.index(known)] if known else None
        if kind == "Global":
            return [rng.index(names["global"]) if names["global"] else str(rng.randrange(200))]
        if kind == "Labels":
            return [rng.index(self.labels[::-1]) for _ in range(rng.choice([1, 1, 2, 3, 200]))]
        if kind in ("Indirect", "Data") and self.types is None:
            return None
        if kind == "Indirect":
            return ([rng.index(names["table"])] if names["table"] and rng.random() < 0.5 else []) + self.unnamed_use()
        if kind in ("Table", "Tables", "TableElem"):
            return self.tables(kind)
        others = {
            "Memory": lambda: memory_argument(rng), "Label": lambda: [rng.index(self.labels[::-1])], "I32": lambda: [integer(rng, 32)],
            "I64": lambda: [integer(rng, 64)], "F32": lambda: [floating(rng, 24, 127)], "F64": lambda: [floating(rng, 53, 1023)],
            "Data": lambda: [rng.any_index(names["data"])], "Elem": lambda: [rng.any_index(names["elem"])],
            "Heap": lambda: [rng.choice(["func", "extern"])], "Results": lambda: selected(rng),
            "Lane": lambda: [lane_index(rng)], "MemoryLane": lambda: memory_argument(rng) + [lane_index(rng)],
            "Shuffle": lambda: [lane_index(rng) for _ in range(16)], "Vector": lambda: vector(rng),
        }
        return others[kind]() if kind in others else []

    def tables(self, kind):
        """Returns the indices of tables, which are optional, and for `TableElem` that of an element segment."""
        rng, count = self.rng, 2 if kind == "Tables" else 1
        said = [rng.any_index(self.names["table"], rng.choice(TABLES)) for _ in range(count)] if rng.random() < 0.6 else []
        return said + ([rng.any_index(self.names["elem"])] if kind == "TableElem" else [])

    def unnamed_use(self):
        """Returns a type use whose parameters have no names."""
        rng = self.rng
        if not self.types or rng.random() < 0.5:
            params, results = a_type(rng)
            index = []
        else:
            at = rng.randrange(len(self.types))
            params, results = self.types[at]
            index = ["(", "type", rng.choice([self.names["type"][at] or str(at), hex(at)]), ")"]
            if rng.random() < 0.5:
                return index
        return index + listed(rng, "param", params, None)[0] + listed(rng, "result", results, None)[0]

    def label(self):
        return self.rng.choice([None, None, "$l", "$m", f"$l{len(self.labels)}"])

    def inside(self, label, make):
        self.labels.append(label)
        made = make()
        self.labels.pop()
        return made

    def head(self, label):
        """Returns the label and the type of a block: a type use, or at most one result among empty groups."""
        rng = self.rng
        if self.types is not None and rng.random() < 0.5:
            return ([label] if label else []) + self.unnamed_use()
        of = rng.choice([[], [], ["(", "result", rng.value_type(), ")"]])
        before = ["(", "param", ")"] * rng.choice([0, 0, 0, 1, 2]) + ["(", "result", ")"] * rng.choice([0, 0, 0, 1])
        return ([label] if label else []) + before + of + ["(", "result", ")"] * rng.choice([0, 0, 0, 1])

    def tail(self, label):
        return [label] if label and self.rng.random() < 0.3 else []

    def block(self, depth):
        """Returns a block up to its `end`."""
        word, label = self.rng.choice(["block", "loop", "if"]), self.label()
        made = [word] + self.head(label) + self.inside(label, lambda: self.many(depth - 1))
        if word == "if" and self.rng.random() < 0.5:
            made += ["else"] + self.tail(label) + self.inside(label, lambda: ["nop"] + self.many(depth - 1))
        return made + ["end"] + self.tail(label)

    def folded(self, depth):
        """Returns a folded instruction."""
        rng = self.rng
        kind = rng.randrange(4)
        if depth <= 0 or kind < 2:
            operands = [t for _ in range(rng.randrange(3)) for t in self.folded(depth - 1)] if depth > 0 else []
            return ["("] + self.plain() + operands + [")"]
        label = self.label()
        if kind == 2:
            return ["(", rng.choice(["block", "loop"])] + self.head(label) + self.inside(label, lambda: self.many(depth - 1)) + [")"]
        made = ["(", "if"] + self.head(label) + [t for _ in range(rng.randrange(2)) for t in self.folded(depth - 1)]
        made += ["(", "then"] + self.inside(label, lambda: self.many(depth - 1)) + [")"]
        if rng.random() < 0.5:
            made += ["(", "else"] + self.inside(label, lambda: ["nop"] + self.many(depth - 1)) + [")"]
        return made + [")"]

    def many(self, depth):
        made = []
        for _ in range(self.rng.randrange(5)):
            made += self.rng.choice([lambda: self.plain(), lambda: self.block(depth) if depth > 0 else self.plain(), lambda: self.folded(depth)])()
        return made


def variables(rng, word, prefix):
    """Returns groups of variables, and the variables' names."""
    tokens, names = [], []
    for at in range(rng.randrange(4)):
        if word != "result" and rng.random() < 0.5:
            tokens += ["(", word, f"${prefix}{at}", rng.value_type(), ")"]
            names.append(f"${prefix}{at}")
        else:
            count = rng.randrange(4)
            tokens += ["(", word] + [rng.value_type(rng.choice([1, 2, 4])) for _ in range(count)] + [")"]
            names += [None] * count
    return tokens, names


KINDS = ("func", "table", "memory", "global")
SEGMENTS = {"memory": "data", "tables": "elem"}
EXPORTED = ['"e{at}"', '"\\41\\n\\t\\""', '"\u00e9\\c3\\a9"', '""', '"\\u{{1f600}}"']


def some_names(rng):
    """Returns the names of up to 4 items of each kind, and of up to 3 segments of each kind to which instructions may refer."""
    names = {kind: [rng.choice([None, f"${kind[0]}{at}", f"$a.b-{at}!"]) for at in range(rng.choice([0, 0, 1, 2, 3, 4]))] for kind in KINDS + ("type",)}
    for form, kind in SEGMENTS.items():
        if form in rng.forms:
            names[kind] = [rng.choice([None, f"${kind[0]}{at}"]) for at in range(rng.choice([0, 0, 1, 2, 3]))]
    return names


def exported(rng):
    """Returns inline exports."""
    return [t for at in range(rng.choice([0, 0, 0, 1, 2])) for t in ["(", "export", rng.choice(EXPORTED).format(at=at), ")"]]


def sizes(rng):
    """Returns the limits of a memory or a table."""
    some = [str(rng.choice([0, 1, 2, 127, 128, 65536, 65537, 2 ** 32 - 1])) for _ in range(rng.choice([1, 2]))]
    return [rng.choice([size, hex(int(size)), f"0_{size}"]) for size in some]


def a_type(rng):
    """Returns the types of parameters and of results."""
    return tuple(tuple(rng.value_type(rng.choice([1, 2, 4])) for _ in range(rng.randrange(3))) for _ in range(2))


def listed(rng, word, types, prefix):
    """Returns groups that list these types, and the names of the listed parameters. Without a prefix none has a name."""
    tokens, names, types = [], [], list(types)
    while types or rng.random() < 0.2:
        if types and prefix and word == "param" and rng.random() < 0.5:
            names.append(f"${prefix}{len(names)}")
            tokens += ["(", word, names[-1], types.pop(0), ")"]
        else:
            count = rng.randrange(len(types) + 1)
            names += [None] * count
            tokens += ["(", word] + types[:count] + [")"]
            types = types[count:]
    return tokens, names


def type_use(rng, types, names):
    """Returns a type use, and the names of its parameters."""
    if not types or rng.random() < 0.5:
        params, results = a_type(rng)
        index = []
    else:
        at = rng.randrange(len(types))
        params, results = types[at]
        index = ["(", "type", rng.choice([names["type"][at] or str(at), hex(at)]), ")"]
        if rng.random() < 0.5:
            return index, [None] * len(params)
    tokens, given = listed(rng, "param", params, "p")
    return index + tokens + listed(rng, "result", results, "r")[0], given


def function(rng, names, types):
    """Returns the tokens of a function after its name and its exports."""
    use, first = type_use(rng, types, names)
    local, last = variables(rng, "local", "v")
    return use + local + Body(rng, names, first + last, types).many(3)


def kind_of(rng, kind):
    """Returns the type of a table, a memory or a global."""
    if kind == "global":
        of = rng.value_type()
        return rng.choice([[of], ["(", "mut", of, ")"]])
    return sizes(rng) + ([rng.choice(REFERENCES)] if kind == "table" else [])


STRINGS = ['""', '"a"', '"\\00\\ff\\n"', '"\u00e9"', '"' + "0123456789" * 7 + '"']


def strings(rng):
    """Returns up to 3 strings."""
    return [rng.choice(STRINGS) for _ in range(rng.choice([0, 1, 1, 2, 3]))]


def offset(rng, names, word):
    """Returns an expression in a group of the keyword, or one folded instruction."""
    body = Body(rng, names, [])
    return rng.choice([lambda: ["(", word] + body.many(1) + [")"], lambda: body.folded(1), lambda: ["(", "i32.const", integer(rng, 32), ")"]])()


def used(rng, names, kind):
    """Returns the optional use of a memory or a table."""
    if not names[kind] or rng.random() < 0.5:
        return []
    return ["(", kind, rng.index(names[kind]), ")"]


def how_many(rng, names, kind):
    """Returns the number of segments of a kind to generate."""
    return len(names[kind]) if kind in names else rng.choice([0, 0, 1, 2, 3])


def own_name(rng, names, kind, at):
    """Returns the name of a segment as a list, which is empty if it has none."""
    if kind in names:
        return [names[kind][at]] if names[kind][at] else []
    return rng.choice([[], [f"${kind[0]}{at}"]])


def data_segments(rng, names):
    """Returns data segments."""
    made = []
    for at in range(how_many(rng, names, "data")):
        active = rng.choice([[], used(rng, names, "memory") + offset(rng, names, "offset")])
        made.append(["(", "data"] + own_name(rng, names, "data", at) + active + strings(rng) + [")"])
    return made


def functions(rng, names):
    """Returns up to 3 indices of functions."""
    if not names["func"]:
        return []
    return [rng.index(names["func"]) for _ in range(rng.choice([0, 1, 2, 3]))]


def reference(rng, names, mixed):
    """Returns an element that is one reference: to a function, or a null reference if `mixed` is set or the module has no functions."""
    null = mixed and rng.random() < 0.5 or not names["func"]
    one = ["ref.null", rng.choice(["func", "extern"])] if null else ["ref.func", rng.index(names["func"])]
    return rng.choice([["("] + one + [")"], ["(", "item"] + one + [")"], ["(", "item", "("] + one + [")", ")"]])


def elements(rng, names):
    """Returns elements as instructions. An empty `item` does not occur, as `wat2wasm` drops it."""
    made, mixed = [], "references" in rng.forms and rng.choice([True, True, False])
    for _ in range(rng.choice([0, 1, 2, 3])):
        if "references" in rng.forms and (not mixed or rng.random() < 0.8):
            made += reference(rng, names, mixed)
            continue
        one = offset(rng, names, "item")
        made += ["(", "item", "nop", ")"] if one == ["(", "item", ")"] else one
    return made


def element_list(rng, names):
    """Returns a list of elements."""
    return rng.choice([lambda: ["func"] + functions(rng, names), lambda: [rng.choice(REFERENCES)] + elements(rng, names)])()


def element_segments(rng, names):
    """Returns element segments."""
    made = []
    for at in range(how_many(rng, names, "elem")):
        kind = rng.randrange(4)
        if kind == 0:
            rest = rng.choice([[], ["declare"]]) + element_list(rng, names)
        elif kind == 1:
            rest = offset(rng, names, "offset") + functions(rng, names)
        else:
            rest = used(rng, names, "table") + offset(rng, names, "offset") + element_list(rng, names)
        made.append(["(", "elem"] + own_name(rng, names, "elem", at) + rest + [")"])
    return made


def content(rng, names, types, kind):
    """Returns the tokens of an item after its name and its exports."""
    if kind == "memory" and rng.random() < 0.3:
        return ["(", "data"] + strings(rng) + [")"]
    if kind == "table" and rng.random() < 0.3:
        return [rng.choice(REFERENCES), "(", "elem"] + rng.choice([functions(rng, names), elements(rng, names)]) + [")"]
    if kind == "func":
        return function(rng, names, types)
    return kind_of(rng, kind) + (Body(rng, names, []).many(1) if kind == "global" else [])


def an_import(rng, names, types, kind, name):
    """Returns an import, inline or as a field of its own."""
    both = [rng.choice(EXPORTED).format(at=at) for at in range(2)]
    named = [name] if name else []
    what = type_use(rng, types, names)[0] if kind == "func" else kind_of(rng, kind)
    if rng.random() < 0.5:
        return ["(", "import"] + both + ["(", kind] + named + what + [")", ")"]
    return ["(", kind] + named + exported(rng) + ["(", "import"] + both + [")"] + what + [")"]


def other_fields(rng, names):
    """Returns exports, at most one start function, and segments."""
    made = []
    for at in range(rng.choice([0, 0, 1, 2, 3])):
        kind = rng.choice(KINDS)
        index = rng.index(names[kind]) if names[kind] else str(rng.randrange(200))
        made.append(["(", "export", rng.choice(EXPORTED).format(at=at + 5), "(", kind, index, ")", ")"])
    if names["func"] and rng.random() < 0.3:
        made.append(["(", "start", rng.index(names["func"]), ")"])
    return made + data_segments(rng, names) + element_segments(rng, names)


def merged(rng, lists):
    """Returns the items of the lists in a random order that keeps the order of each list."""
    lists, made = [list(items) for items in lists if items], []
    while lists:
        items = rng.choice(lists)
        made.append(items.pop(0))
        lists = [items for items in lists if items]
    return made


def type_field(rng, name, of):
    """Returns a field that defines a type."""
    return ["(", "type"] + ([name] if name else []) + ["(", "func"] + listed(rng, "param", of[0], "p")[0] + listed(rng, "result", of[1], "r")[0] + [")", ")"]


def module(rng, names):
    """Returns the tokens of a module whose items have these names."""
    types = [a_type(rng) for _ in names["type"]]
    lists, imports = [], []
    for kind in KINDS:
        many = rng.choice([0, 0, 1, 2]) if types else 0
        imports += [[an_import(rng, names, types, kind, name) for name in names[kind][:many]]]
        lists += [[["(", kind] + ([name] if name else []) + exported(rng) + content(rng, names, types, kind) + [")"] for name in names[kind][many:]]]
    defined = [type_field(rng, name, of) for name, of in zip(names["type"], types)]
    first = merged(rng, imports)
    fields = merged(rng, [first + merged(rng, lists), defined] + [[field] for field in other_fields(rng, names)])
    head = ["(", "module"] + rng.choice([[], ["$m"]])
    tokens = [token for field in fields for token in field]
    return tokens if tokens and "bare" in rng.forms and rng.random() < 0.15 else head + tokens + [")"]


def laid(rng, tokens):
    """Returns the text of tokens, with random whitespace and comments between them."""
    text = ""
    for at, token in enumerate(tokens):
        if at and not (rng.random() < 0.5 and (token in "()" or tokens[at - 1] in "()")):
            text += rng.choice(GAPS)
        text += token
    return text


def with_type(rng, tokens):
    """Returns the tokens with a type index added to a function or a call. It may be that of a type that an inline type use adds.

    `wat2wasm` does not find such a type in a block.
    """
    heads = [at for at, token in enumerate(tokens) if token in {"func", "call_indirect"}]
    if not heads:
        return tokens
    at = rng.choice(heads) + 1
    at += at < len(tokens) and tokens[at].startswith("$")
    return tokens[:at] + ["(", "type", str(rng.randrange(6)), ")"] + tokens[at:]


def mutated(rng, tokens):
    """Returns the tokens with one random change."""
    at, other = rng.randrange(len(tokens)), rng.randrange(len(tokens))
    kind = rng.randrange(5)
    if kind == 4:
        return with_type(rng, tokens)
    if kind == 0:
        return tokens[:at] + tokens[at + 1:]
    if kind == 1:
        return tokens[:at] + [tokens[other]] + tokens[at:]
    if kind == 2:
        return tokens[:at] + [tokens[other]] + tokens[at + 1:]
    made = list(tokens)
    made[at], made[other] = made[other], made[at]
    return made


def made_texts(rng, modules, mutants):
    """Returns modules, and mutants of them: for each whether it is a mutant, its tokens and its text."""
    texts = []
    while len(texts) < modules:
        texts.append((False, module(rng, some_names(rng))))
    whole = [tokens for _, tokens in texts]
    while len(texts) < modules + mutants:
        tokens = mutated(rng, rng.choice(whole))
        if tokens and not has_empty_else(tokens) and not has_empty_select(tokens):
            texts.append((True, tokens))
    return [(mutant, tokens, laid(rng, tokens)) for mutant, tokens in texts]


def big_module(rng, count, named):
    """Returns the text of a module of `count` functions."""
    segments = [kind for form, kind in SEGMENTS.items() if form in rng.forms]
    names = {**{kind: [] for kind in (*KINDS, "type", *segments)}, "func": [f"$f{at}" if named else None for at in range(count)]}
    return " ".join(module(rng, names)).replace(" ( func", "\n( func")
