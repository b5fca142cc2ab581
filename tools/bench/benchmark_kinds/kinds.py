"""Texts of one kind each, in any size, for tools/bench/benchmark_kinds.py."""
import pathlib
import sys

TOOLS = pathlib.Path(__file__).resolve().parents[2]
sys.path += [str(TOOLS / "lib"), str(TOOLS / "test/cost")]

import generate_kinds
import texts

RNG = generate_kinds.RNG
# The kinds of tools/test/cost/texts.py without errors that differ in their tokens.
LEXICAL = "wide annotations_shown annotations_deep unformatted".split()
MODULES = "functions types imports exports data_one data_words elements constants folded labels branch_tables".split()
PROSE = "the a loop counts pages of memory, (see below) until its value; is $x or 0x10 i.e. one byte more than before".split()
CYRILLIC = "эта функция вычисляет сумму двух чисел и возвращает её".split()
CJK = "この関数は整数を返します。値は零ではない。"
LONG_KEYWORDS = (
    "i32.trunc_sat_f64_s i16x8.extadd_pairwise_i8x16_u memory.atomic.wait32 i64.atomic.rmw.cmpxchg_u i32x4.relaxed_trunc_f32x4_s"
).split()
RESERVED = ['a"b"c', '"a""b"', '1"x"', '$a"b"', "0xg", "1.2.3", "+", "#", "a#,b"]


def prose(low, high):
    """Returns words of a comment with that many characters."""
    length, words = RNG.randint(low, high), ""
    while len(words) < length:
        words += RNG.choice(PROSE) + " "
    return words[: length - 1] + "."


def line(text):
    return f";; {text}\n"


def string(*choices):
    """Returns a string of random choices. An empty choice becomes a few letters."""
    parts = (RNG.choice(choices) or generate_kinds.some(generate_kinds.PLAIN, 1, 5) for _ in range(RNG.randint(4, 30)))
    return f'"{"".join(parts)}" '


def underscored(digits, every):
    """Returns the digits with an underscore before each group."""
    first = len(digits) % every or every
    return "_".join([digits[:first], *(digits[i : i + every] for i in range(first, len(digits), every))])


def nested(depth):
    return "(; x " * depth + ";) " * depth


def instruction():
    return RNG.choice([
        f"local.get {RNG.randrange(30)}", f"i32.const {RNG.randrange(-99, 1 << 16)}", f"call $f{RNG.randrange(900)}",
        f"i32.load offset={4 * RNG.randrange(99)} align=4", RNG.choice(generate_kinds.WORDS)])


def function(separator):
    head = f"(func (;{RNG.randrange(900)};) (type {RNG.randrange(30)}) (param i32 i64) (result i32)"
    return separator.join([head, *(instruction() for _ in range(RNG.randint(3, 40)))]) + ")\n"


def asserted():
    arguments = f"(i32.const 0x{RNG.randrange(1 << 31):x}) (i32.const -{RNG.randrange(1 << 31)})"
    return f'(assert_return (invoke "add" {arguments}) (f64.const {RNG.uniform(-1e5, 1e5).hex()}))\n'


PIECES = {
    "line_20": lambda: line(prose(10, 20)),
    "line_80": lambda: line(prose(60, 80)),
    "line_300": lambda: line(prose(250, 296)),
    "line_4000": lambda: line(prose(3900, 4000)),
    "line_banner": lambda: line("─" * RNG.randint(20, 70)),
    "line_quotes": lambda: line(f"the callee’s “value” — {prose(20, 40)} → {prose(10, 20)}"),
    "line_cyrillic": lambda: line(" ".join(RNG.choices(CYRILLIC, k=RNG.randint(4, 12)))),
    "line_cjk": lambda: line("".join(RNG.choices(CJK, k=RNG.randint(8, 30)))),
    "block_index": lambda: f"(;{RNG.randrange(999)};) ",
    "block_doc": lambda: "(;\n" + "".join(f"  {prose(30, 90)}\n" for _ in range(8)) + ";)\n",
    "block_nests": lambda: nested(RNG.randint(2, 6)) + "\n",
    "block_banner": lambda: f"(; {'─' * RNG.randint(20, 70)} ;)\n",
    "strings_simple": lambda: string("\\n", "\\t", '\\"', "\\\\", ""),
    "strings_u": lambda: string("\\u{e9}", "\\u{1f600}", "\\u{2192}", ""),
    "strings_typographic": lambda: string("—", "’", "→", ""),
    "keywords_long": lambda: RNG.choice(LONG_KEYWORDS) + " ",
    "integers_small": lambda: f"{RNG.randrange(40)} ",
    "integers_64": lambda: f"{RNG.randrange(1 << 63)} ",
    "integers_underscored": lambda: underscored(str(RNG.randrange(1 << 31)), 3) + " ",
    "hex_32": lambda: f"0x{RNG.randrange(1 << RNG.randint(1, 32)):x} ",
    "hex_underscored": lambda: f"0x{underscored(f'{RNG.randrange(1 << 32):x}', 4)} ",
    "floats_17": lambda: f"{RNG.uniform(-1e5, 1e5)!r} ",
    "floats_exponent": lambda: f"{RNG.uniform(-9, 9) * 10.0 ** RNG.randrange(-300, 300):.15e} ",
    "floats_underscored": lambda: f"{underscored(str(RNG.randrange(1 << 20)), 3)}.{underscored(f'{RNG.randrange(10**6):06}', 3)}e{RNG.randrange(2)}_0 ",
    "floats_special": lambda: RNG.choice(["nan", "inf", "-inf", "nan:0x200000", "-nan:0x7f_ffff", "+inf"]) + " ",
    "one_byte": lambda: RNG.choice("()a1,") + " ",
    "blanks_mixed": lambda: "(" + RNG.choice([" ", "\n", "  ", "\t", "\r\n", " " * RNG.randint(1, 29)]),
    "blanks_deep": lambda: "\n" + " " * RNG.randint(8, 119) + "end",
    "reserved": lambda: RNG.choice(RESERVED) + " ",
    "annotations_dense": lambda: RNG.choice(["(@a) ", "(@b c) ", "(@x (y z) 1)", '(@"q r" 2)\n', "(@c(@d))", "(f) "]),
    "annotations_sparse": lambda: "".join(f"  {instruction()}\n" for _ in range(10)) + '(@metadata.code.branch_hint "\\00")\n',
    "groups": lambda: f"(a (b {RNG.randrange(1 << 16)}) (c {RNG.randrange(99)} 0x{RNG.randrange(1 << 20):x}))\n",
    "groups_deep": lambda: "(" * 12 + "a" + ")" * 12 + "\n",
    "code": lambda: function("\n    "),
    "code_crlf": lambda: function("\r\n    ").replace(")\n", ")\r\n"),
    "code_minified": lambda: function(" ").strip(),
    "asserts": asserted,
}

WHOLE = {
    "line_64000": lambda size: line("lorem ipsum " * 5333) * max(1, size // 64_000),
    "line_one": lambda size: line("x" * size),
    "string_one": lambda size: f'"{"x" * size}"',
    "integer_one": lambda size: "1" * size,
}


def many(piece):
    """Returns a function from a size to a text of random pieces, which are shuffled for each repetition."""
    def text_of(size):
        RNG.seed(7)
        block = [piece() for _ in range(min(2000, 1 + size // (1 + len(piece()))))]
        parts, length = [], 0
        while length < size:
            RNG.shuffle(block)
            for part in block:
                if length < size:
                    parts.append(part)
                    length += len(part.encode())
        return "".join(parts)
    return text_of


def kinds():
    """Returns a function from a size to a text for each kind, by name. A text is not longer than a piece above its size."""
    pieces = {name: many(piece) for name, piece in {**generate_kinds.PIECES, **PIECES}.items()}
    wholes = {**generate_kinds.WHOLE, **WHOLE}
    others = {name: {**texts.LEXICAL, **texts.MODULES}[name] for name in LEXICAL + MODULES}
    return {**pieces, **wholes, **others}
