"""Random valid modules as lists of units, and mutants of them, for compare_validity.py.

A unit is a list of tokens: an instruction with its immediates, or a part of a field. Instructions follow the types of the operands, so that each
module is valid, with blocks, branches, code after `br`, `return` and `unreachable`, tables, segments, references and vectors. The types of plain
instructions are those of `specs/InstructionTypes.antt` of `wat_valid`; a wrong type there shows as a module that the reference implementations reject.
"""
import pathlib
import re

SPECS = pathlib.Path(__file__).resolve().parents[2] / "crates/wat_valid/specs/InstructionTypes.antt"
ROW = re.compile(r"typed(?:_after 0xF[CD])? \w+ (?:Own|\((\w+) (?:(\d+) )?(.+?)\)) \(codes \"([^\"]+)\"\)")
NUMBERS = ["i32", "i64", "f32", "f64"]
REFERENCES = ["funcref", "externref"]
TYPES = NUMBERS + ["v128"] + REFERENCES


def signature(name):
    """Returns the parameters and the results of a type of `InstructionTypes`."""
    words = name.strip("() ").split()
    head, args = words[0], words[1:]
    if head == "from_to":
        return lists(name)
    v = ["v128"]
    return {
        "nop": lambda: ([], []), "const": lambda: ([], args), "unop": lambda: (args, args), "binop": lambda: (args * 2, args),
        "testop": lambda: (args, ["i32"]), "relop": lambda: (args * 2, ["i32"]), "cvtop": lambda: (args[:1], args[1:]), "vternop": lambda: (v * 3, v),
        "vshiftop": lambda: (v + ["i32"], v), "splat": lambda: (args, v), "extract": lambda: (v, args), "replace": lambda: (v + args, v),
        "load": lambda: (["i32"], args), "store": lambda: (["i32"] + args, []), "load_lane": lambda: (["i32", "v128"], v),
        "store_lane": lambda: (["i32", "v128"], []),
    }[head]()


def lists(name):
    """Returns the two lists of `from_to` of `InstructionTypes`."""
    parts = re.findall(r"\[\]|\([^()]*\)", name[name.index("from_to") + 7:])
    return tuple(re.findall(r"i32|i64|f32|f64|v128", part) for part in parts[:2])


def rows():
    """Returns for each plain instruction with a type its keyword, its condition, the number of the condition, its parameters and its results."""
    made = []
    for condition, number, of, words in ROW.findall(SPECS.read_text(encoding="utf-8")):
        if condition:
            params, results = signature(of)
            made += [(word, condition, int(number or 0), tuple(params), tuple(results)) for word in words.split()]
    return made


ROWS = rows()


def immediates(rng, word, condition, number):
    """Returns valid immediates of a plain instruction."""
    if condition in ("Access", "AccessLane"):
        made = rng.choice([[], [f"offset={rng.choice([0, 1, 65536, 4294967295])}"]])
        made += rng.choice([[], [f"align={2 ** rng.randrange(number.bit_length())}"]])
        return made + ([str(rng.randrange(16 // number))] if condition == "AccessLane" else [])
    if condition == "Lane":
        return [str(rng.randrange(number))]
    if condition == "Shuffle":
        return [str(rng.randrange(32)) for _ in range(16)]
    if word == "v128.const":
        return ["i32x4", "1", "2", "3", "4"]
    if word.endswith(".const"):
        return [str(rng.choice([0, 1, 7]))]
    return []


class Module:
    """The items of a module."""

    def __init__(self, rng):
        self.rng = rng
        some = lambda most: [rng.choice(TYPES) for _ in range(rng.choice([0, 0, 1, 1, 2, 3][:most + 3]))]
        self.types = [(some(3), some(3)) for _ in range(rng.randrange(1, 4))] + [([], [])]
        self.imported = rng.randrange(3)
        self.funcs = [rng.randrange(len(self.types)) for _ in range(self.imported + rng.randrange(1, 4))]
        self.tables = [rng.choice(REFERENCES) for _ in range(rng.choice([0, 1, 1, 2]))]
        self.has_memory = rng.random() < 0.8
        self.imported_globals = [(rng.choice(TYPES), rng.random() < 0.3) for _ in range(rng.choice([0, 1, 2]))]
        self.globals = self.imported_globals + [(rng.choice(TYPES), rng.random() < 0.5) for _ in range(rng.choice([0, 1, 2]))]
        self.elems = [rng.choice(REFERENCES) for _ in range(rng.choice([0, 1, 2]))]
        self.datas = rng.choice([0, 1, 2])
        self.declared = set()
        self.references = set()

    def constant(self, of, is_element=False):
        """Returns the instruction of a constant expression."""
        rng = self.rng
        known = [at for at, (value, mutable) in enumerate(self.imported_globals) if value == of and not mutable]
        if known and rng.random() < (0.1 if is_element else 0.4):
            return ["global.get", str(rng.choice(known))]
        if of == "funcref" and rng.random() < 0.5:
            at = rng.randrange(len(self.funcs))
            self.declared.add(at)
            return ["ref.func", str(at)]
        return default(of)


def default(of):
    """Returns an instruction that leaves a value of a type."""
    if of in REFERENCES:
        return ["ref.null", of[:-3]]
    return ["v128.const", "i32x4", "0", "0", "0", "0"] if of == "v128" else [f"{of}.const", "0"]


def typed(word, types):
    return ["(", word] + list(types) + [")"] if types else []


class Frame:
    def __init__(self, params, results, label):
        self.results, self.label, self.stack, self.is_dead = list(results), list(label), list(params), False


class Body:
    """A generator of the instructions of a function."""

    def __init__(self, module, params, results, locals_):
        self.m, self.rng = module, module.rng
        self.locals, self.results = list(params) + list(locals_), list(results)
        self.frames, self.units = [Frame([], results, results)], []

    @property
    def top(self):
        return self.frames[-1]

    def has(self, types):
        """Returns `True` if the last operands have these types."""
        stack = self.top.stack
        if not types:
            return True
        if len(stack) >= len(types):
            return all(a == b or a is None for a, b in zip(stack[-len(types):], types))
        return self.top.is_dead and (not stack or all(a == b or a is None for a, b in zip(stack, types[-len(stack):])))

    def apply(self, unit, params, results):
        self.units.append(unit)
        stack = self.top.stack
        del stack[max(0, len(stack) - len(params)):]
        stack.extend(results)

    def need(self, types):
        """Makes the last operands have these types."""
        if self.has(types):
            return
        for of in types:
            self.push(of)

    def push(self, of):
        rng = self.rng
        known = [at for at, local in enumerate(self.locals) if local == of]
        held = [at for at, (value, _) in enumerate(self.m.globals) if value == of]
        if known and rng.random() < 0.5:
            unit = ["local.get", str(rng.choice(known))]
        elif held and rng.random() < 0.3:
            unit = ["global.get", str(rng.choice(held))]
        elif of == "funcref" and rng.random() < 0.4:
            at = rng.randrange(len(self.m.funcs))
            self.m.references.add(at)
            unit = ["ref.func", str(at)]
        else:
            unit = default(of)
        self.apply(unit, [], [of])

    def leave(self, unit, types):
        """Applies an instruction after which code is not reached."""
        self.need(types)
        self.units.append(unit)
        self.top.stack, self.top.is_dead = [], True

    def step(self, depth):
        rng, m, top = self.rng, self.m, self.top
        kind = rng.randrange(24)
        if kind < 9:
            fitting = [row for row in ROWS if self.has(row[3]) and (m.has_memory or row[1] not in ("Access", "AccessLane", "OnMemory"))]
            if rng.random() < 0.3 or not fitting:
                fitting = [row for row in ROWS if m.has_memory or row[1] not in ("Access", "AccessLane", "OnMemory")]
            word, condition, number, params, results = rng.choice(fitting)
            self.need(params)
            self.apply([word] + immediates(rng, word, condition, number), params, results)
        elif kind == 9 and depth > 0:
            self.block(depth)
        elif kind == 10 and depth > 0:
            self.block(depth)
        elif kind == 11 and top.stack:
            self.apply(["drop"], top.stack[-1:], [])
        elif kind == 12:
            of = rng.choice(NUMBERS + ["v128"])
            self.need([of, of, "i32"])
            self.apply(["select"], [of, of, "i32"], [of])
        elif kind == 13:
            of = rng.choice(TYPES)
            self.need([of, of, "i32"])
            self.apply(["select", "(", "result", of, ")"], [of, of, "i32"], [of])
        elif kind == 14 and self.locals:
            at = rng.randrange(len(self.locals))
            of = self.locals[at]
            word = rng.choice(["local.set", "local.tee"])
            self.need([of])
            self.apply([word, str(at)], [of], [of] if word == "local.tee" else [])
        elif kind == 15 and m.globals:
            at = rng.randrange(len(m.globals))
            of, mutable = m.globals[at]
            if mutable:
                self.need([of])
                self.apply(["global.set", str(at)], [of], [])
        elif kind == 16:
            self.branch()
        elif kind == 17:
            at = rng.randrange(len(m.funcs))
            params, results = m.types[m.funcs[at]]
            self.need(params)
            self.apply(["call", str(at)], params, results)
        elif kind == 18:
            self.table()
        elif kind == 19:
            self.segment()
        elif kind == 20:
            of = rng.choice(REFERENCES)
            self.need([of])
            self.apply(["ref.is_null"], [of], ["i32"])
        else:
            self.push(rng.choice(TYPES))

    def branch(self):
        rng = self.rng
        at = rng.randrange(len(self.frames))
        label = self.frames[-1 - at].label
        kind = rng.randrange(6)
        if kind < 2:
            self.need(label + ["i32"])
            self.apply(["br_if", str(at)], label + ["i32"], label)
        elif kind == 2:
            self.leave(["br", str(at)], label)
        elif kind == 3:
            same = [str(l) for l in range(len(self.frames)) if self.frames[-1 - l].label == label]
            self.leave(["br_table"] + [rng.choice(same) for _ in range(rng.randrange(3))] + [str(at)], label + ["i32"])
        elif kind == 4:
            self.leave(["return"], self.results)
        else:
            self.leave(["unreachable"], [])

    def table(self):
        rng, m = self.rng, self.m
        if not m.tables:
            return
        at = rng.randrange(len(m.tables))
        of = m.tables[at]
        same = [o for o, other in enumerate(m.tables) if other == of]
        segments = [o for o, other in enumerate(m.elems) if other == of]
        kind = rng.randrange(8)
        if kind == 0:
            self.need(["i32"])
            self.apply(["table.get", str(at)], ["i32"], [of])
        elif kind == 1:
            self.need(["i32", of])
            self.apply(["table.set", str(at)], ["i32", of], [])
        elif kind == 2:
            self.apply(["table.size", str(at)], [], ["i32"])
        elif kind == 3:
            self.need([of, "i32"])
            self.apply(["table.grow", str(at)], [of, "i32"], ["i32"])
        elif kind == 4:
            self.need(["i32", of, "i32"])
            self.apply(["table.fill", str(at)], ["i32", of, "i32"], [])
        elif kind == 5:
            self.need(["i32"] * 3)
            self.apply(["table.copy", str(at), str(rng.choice(same))], ["i32"] * 3, [])
        elif kind == 6 and segments:
            self.need(["i32"] * 3)
            self.apply(["table.init", str(at), str(rng.choice(segments))], ["i32"] * 3, [])
        elif of == "funcref":
            number = rng.randrange(len(m.types))
            params, results = m.types[number]
            self.need(params + ["i32"])
            self.apply(["call_indirect", str(at), "(", "type", str(number), ")"], params + ["i32"], results)

    def segment(self):
        rng, m = self.rng, self.m
        kind = rng.randrange(3)
        if kind == 0 and m.elems:
            self.apply(["elem.drop", str(rng.randrange(len(m.elems)))], [], [])
        elif kind == 1 and m.datas:
            self.apply(["data.drop", str(rng.randrange(m.datas))], [], [])
        elif kind == 2 and m.datas and m.has_memory:
            self.need(["i32"] * 3)
            self.apply(["memory.init", str(rng.randrange(m.datas))], ["i32"] * 3, [])

    def block(self, depth):
        rng, m = self.rng, self.m
        word = rng.choice(["block", "loop", "if"])
        kind = rng.randrange(4)
        if kind == 0:
            params, results, of = [], [], []
        elif kind == 1:
            results = [rng.choice(TYPES)]
            params, of = [], typed("result", results)
        elif kind == 2:
            number = rng.randrange(len(m.types))
            (params, results), of = m.types[number], ["(", "type", str(number), ")"]
        else:
            params = [rng.choice(TYPES) for _ in range(rng.randrange(3))]
            results = [rng.choice(TYPES) for _ in range(rng.randrange(3))]
            of = typed("param", params) + typed("result", results)
        params, results = list(params), list(results)
        taken = params + (["i32"] if word == "if" else [])
        self.need(taken)
        self.apply([word] + of, taken, [])
        self.inside(params, results, params if word == "loop" else results, depth)
        if word == "if" and (params != results or rng.random() < 0.5):
            self.units.append(["else"])
            self.inside(params, results, results, depth)
        self.units.append(["end"])
        self.top.stack.extend(results)

    def inside(self, params, results, label, depth):
        self.frames.append(Frame(params, results, label))
        self.many(depth - 1, self.rng.randrange(5))
        self.finish()
        self.frames.pop()

    def many(self, depth, count):
        for _ in range(count):
            self.step(depth)

    def finish(self):
        """Makes the operands of the frame its results."""
        top, results = self.top, self.top.results
        if self.has(results) and len(top.stack) <= len(results) and (len(top.stack) == len(results) or top.is_dead):
            return
        if self.rng.random() < 0.3:
            self.leave(["unreachable"], [])
            return
        while top.stack:
            self.apply(["drop"], top.stack[-1:], [])
        for of in results:
            self.push(of)


def limits(rng, most):
    least = rng.choice([0, 1, 2, most])
    return [str(least)] + rng.choice([[], [str(rng.choice([least, most]))]])


def valid_module(rng):
    """Returns the units of a valid module."""
    m = Module(rng)
    imports, defined, last = [], [], []
    names = iter(range(1000))
    export = lambda: ["(", "export", f'"e{next(names)}"', ")"] if rng.random() < 0.3 else []
    types = [[["(", "type", "(", "func"] + typed("param", p) + typed("result", r) + [")", ")"]] for p, r in m.types]
    for number in m.funcs[:m.imported]:
        imports.append([["(", "import", '"m"', '"n"', "(", "func", "(", "type", str(number), ")", ")", ")"]])
    for of, mutable in m.imported_globals:
        imports.append([["(", "import", '"m"', '"n"', "(", "global"] + (["(", "mut", of, ")"] if mutable else [of]) + [")", ")"]])
    tables_imported = rng.random() < 0.3
    for of in m.tables:
        if tables_imported:
            imports.append([["(", "import", '"m"', '"n"', "(", "table"] + limits(rng, 4294967295) + [of, ")", ")"]])
        else:
            defined.append([["(", "table"] + export() + limits(rng, 4294967295) + [of, ")"]])
    if m.has_memory:
        if rng.random() < 0.3:
            imports.append([["(", "import", '"m"', '"n"', "(", "memory"] + limits(rng, 65536) + [")", ")"]])
        else:
            defined.append([["(", "memory"] + export() + limits(rng, 65536) + [")"]])
    for of, mutable in m.globals[len(m.imported_globals):]:
        defined.append([["(", "global"] + export() + (["(", "mut", of, ")"] if mutable else [of]), m.constant(of), [")"]])
    functions = []
    for at, number in enumerate(m.funcs[m.imported:]):
        params, results = m.types[number]
        local = [rng.choice(TYPES) for _ in range(rng.randrange(4))]
        body = Body(m, params, results, local)
        body.many(2, rng.randrange(1, 9))
        body.finish()
        use = rng.choice([["(", "type", str(number), ")"], typed("param", params) + typed("result", results)])
        marked = export()
        if marked:
            m.declared.add(m.imported + at)
        functions.append([["(", "func"] + marked + use + typed("local", local)] + body.units + [[")"]])
    for of in m.elems:
        mode = [["declare"]] if rng.random() < 0.2 else []
        targets = [at for at, other in enumerate(m.tables) if other == of]
        if not mode and targets and rng.random() < 0.6:
            mode = [["(", "table", str(rng.choice(targets)), ")", "(", "offset"], m.constant("i32"), [")"]]
        if of == "funcref" and rng.random() < 0.5:
            chosen = [rng.randrange(len(m.funcs)) for _ in range(rng.randrange(3))]
            m.declared.update(chosen)
            last.append([["(", "elem"]] + mode + [["func"] + [str(at) for at in chosen], [")"]])
        else:
            items = [unit for _ in range(rng.randrange(3)) for unit in (["(", "item"], m.constant(of, True), [")"])]
            last.append([["(", "elem"]] + mode + [[of]] + items + [[")"]])
    for _ in range(m.datas):
        active = [["(", "memory", "0", ")", "(", "offset"], m.constant("i32"), [")"]] if m.has_memory and rng.random() < 0.5 else []
        last.append([["(", "data"]] + active + [['"a"', ")"]])
    for kind, count in (("func", len(m.funcs)), ("global", len(m.globals)), ("table", len(m.tables)), ("memory", int(m.has_memory))):
        if count and rng.random() < 0.3:
            at = rng.randrange(count)
            if kind == "func":
                m.declared.add(at)
            last.append([["(", "export", f'"e{next(names)}"', "(", kind, str(at), ")", ")"]])
    starts = [at for at, number in enumerate(m.funcs) if m.types[number] == ([], [])]
    if starts and rng.random() < 0.3:
        last.append([["(", "start", str(rng.choice(starts)), ")"]])
    missing = sorted(m.references - m.declared)
    if missing:
        last.append([["(", "elem", "declare", "func"] + [str(at) for at in missing] + [")"]])
    fields = rng.choice([types + imports, imports + types]) + rng.choice([defined + functions, functions + defined]) + last
    return [["(", "module"]] + [unit for field in fields for unit in field] + [[")"]]


IMMEDIATE_KINDS = {}
for _word, _condition, _number, _params, _results in ROWS:
    _kind = (_condition, _number if _condition == "Lane" else 0) if not _word.endswith(".const") else _word
    IMMEDIATE_KINDS.setdefault(_kind if not isinstance(_kind, tuple) or _kind[0] not in ("Plain", "OnMemory") else "none", []).append(_word)
GROUPS = list(IMMEDIATE_KINDS.values()) + [
    ["local.get", "local.set", "local.tee"], ["global.get", "global.set"], ["table.get", "table.set", "table.size", "table.grow", "table.fill"],
    ["br", "br_if", "br_table"], ["call", "ref.func"], ["block", "loop", "if"], ["memory.init", "data.drop", "elem.drop"],
    ["unreachable", "nop", "return", "drop", "select", "ref.is_null"],
]
OF_WORD = {}
for _group in GROUPS:
    for _word in _group:
        OF_WORD.setdefault(_word, []).extend(_group)
for _word in ["unreachable", "nop", "return", "drop", "select", "ref.is_null"]:
    OF_WORD[_word] = OF_WORD[_word] + IMMEDIATE_KINDS["none"]


def is_instruction(unit):
    return unit[0] not in "()" and unit[0] not in ("func", "funcref", "externref", "declare") and not unit[0].startswith('"')


def changed_token(rng, units, pick, change):
    """Returns the units with one token changed, of those for which `pick` is true. Returns `None` if there is none."""
    places = [(at, to) for at, unit in enumerate(units) for to, token in enumerate(unit) if pick(unit, to, token)]
    if not places:
        return None
    at, to = rng.choice(places)
    unit = list(units[at])
    unit[to] = change(unit[to])
    return units[:at] + [unit] + units[at + 1:]


def other(rng, among, not_this):
    return rng.choice([some for some in among if some != not_this] or [not_this])


def mutate(rng, units):
    """Returns the units with one random change of a type, an instruction, an index, an alignment, a limit or a name."""
    kind = rng.randrange(13)
    instructions = [at for at, unit in enumerate(units) if is_instruction(unit)]
    integer = lambda token: token.isdigit()
    if kind == 0:
        return changed_token(rng, units, lambda u, to, t: t in TYPES, lambda t: other(rng, TYPES, t))
    if kind in (1, 2):
        return changed_token(rng, units, lambda u, to, t: to == 0 and t in OF_WORD, lambda t: other(rng, OF_WORD[t], t))
    if kind == 3 and instructions:
        at = rng.choice(instructions)
        return units[:at] + units[at + 1:]
    if kind == 4 and instructions:
        at = rng.choice(instructions)
        return units[:at] + [units[at]] + units[at:]
    if kind in (5, 6):
        return changed_token(rng, units, lambda u, to, t: integer(t), lambda t: str(max(0, int(t) + rng.choice([-1, 1]))))
    if kind == 7:
        return changed_token(rng, units, lambda u, to, t: t.startswith("align="), lambda t: f"align={int(t[6:]) * 2}")
    if kind == 8:
        header = lambda u, to, t: integer(t) and ("memory" in u or "table" in u) and not is_instruction(u)
        return changed_token(rng, units, header, lambda t: rng.choice(["0", "1", "3", "65535", "65536", "65537", "4294967295"]))
    if kind == 9 and len(instructions) > 1:
        one, two = rng.sample(instructions, 2)
        made = list(units)
        made[one], made[two] = made[two], made[one]
        return made
    if kind == 10 and instructions:
        at = rng.choice(instructions)
        word = rng.choice(IMMEDIATE_KINDS["none"] + ["drop", "unreachable", "return", "nop", "select"])
        return units[:at] + [rng.choice([[word], default(rng.choice(TYPES)), units[rng.choice(instructions)]])] + units[at:]
    if kind == 11:
        return changed_token(rng, units, lambda u, to, t: t.startswith('"e') or t in ("mut",), lambda t: '"e0"' if t[0] == '"' else t)
    if kind == 12:
        fields = [at for at, unit in enumerate(units) if unit[0] == "(" and unit[-1] == ")" and unit.count("(") == unit.count(")")]
        if fields:
            at = rng.choice(fields)
            return rng.choice([units[:at] + units[at + 1:], units[:at] + [units[at]] + units[at:]])
    return None


def text_of(units):
    """Returns the text of units, each on a line of its own."""
    return "\n".join(" ".join(unit) for unit in units) + "\n"
