#!/usr/bin/env python3
"""Writes texts in the forms that programs, people and tests give them, for benchmarks. All of them are generated at random from a fixed seed.

usage: forms.py FOLDER [MEGABYTES]

flat         functions as `wasm2wat` prints them, an instruction a line
crlf         the text of flat with CR LF as line ends
minified     similar functions on one line, with no unnecessary blank
folded       functions of deep folded expressions, one a line
mangled      calls of functions with mangled names of C++
quoted       calls of functions with quoted names of C++
data         segments of random bytes: printable characters, and escapes for the others
data_one     one string of escapes
asserts      scripts of short asserts, among them hexadecimal floats
binary       scripts of modules in binary, in strings
comments     functions with comments above them, 80% of the text
unicode      functions, with comments and strings in Chinese, Japanese and Russian
files/N.wat  300 modules under 4 kB, each a text of its own
refused_N    240 kB of integers, of which the 20th or the 20,000th is replaced by a keyword
fault_20     240 kB of integers, of which the 20th is replaced by a lexical error
"""
import pathlib
import random
import sys

RNG = random.Random(13)
ONES = ["i32.add", "i32.sub", "i64.mul", "f64.add", "drop", "end", "return", "i32.eqz", "local.tee 3", "br_if 0", "i32.store8", "block", "loop"]
TYPES = ["i32", "i64", "f32", "f64"]
PARTS = "vector basic_string allocator char_traits push_back append size iterator stream locale buffer shared_ptr".split()
SAID = ["这是一个注释，说明函数的作用以及参数的含义。", "Эта функция вычисляет сумму двух чисел.", "この関数は整数を返します。"]
PROSE = "the function returns value of parameter memory and (unsafe) i32.load stack pointer".split()


def instruction():
    return RNG.choice([
        lambda: f"local.get {RNG.randrange(20)}", lambda: f"local.set {RNG.randrange(20)}", lambda: f"i32.const {RNG.randrange(-99, 1 << 16)}",
        lambda: f"call {RNG.randrange(900)}", lambda: f"i32.load offset={4 * RNG.randrange(99)}", lambda: RNG.choice(ONES), lambda: RNG.choice(ONES)])()


def function():
    body = [f"    {instruction()}" for _ in range(RNG.randint(3, 60))]
    head = f"  (func (;{RNG.randrange(900)};) (type {RNG.randrange(30)}) (param {RNG.choice(TYPES)} i32) (result {RNG.choice(TYPES)})"
    return "\n".join([head, "    (local i32 i32)"] + body) + ")\n"


def squeezed():
    body = " ".join(instruction() for _ in range(RNG.randint(3, 60)))
    return f"(func(type {RNG.randrange(30)})(param {RNG.choice(TYPES)} i32)(result i32)(local i32 i32){body})"


def expression(depth):
    if depth == 0 or RNG.random() > 0.8:
        return f"(i32.const {RNG.randrange(1000)})"
    return f"({RNG.choice(['i32.add', 'i32.mul', 'select'])} {expression(depth - 1)} {expression(depth - 1)})"


def mangled():
    return "_ZN" + "".join(f"{len(part)}{part}" for part in RNG.choices(PARTS, k=RNG.randint(1, 4))) + "E" + RNG.choice(["v", "PKcm", "RKS3_", "ib"])


def written_out():
    return "::".join(["std"] + RNG.choices(PARTS, k=RNG.randint(1, 4))) + RNG.choice(["()", "(char const*, unsigned long)", "(int, bool)"])


def by_names(name):
    return f"    call ${name()}\n    local.get {RNG.randrange(9)}\n    call ${name()}\n"


def escapes(count):
    return "".join(f"\\{RNG.randrange(256):02x}" for _ in range(count))


def segment():
    codes = [RNG.randrange(256) for _ in range(RNG.randrange(16, 400))]
    text = "".join(chr(code) if 32 <= code < 127 and chr(code) not in '"\\' else f"\\{code:02x}" for code in codes)
    return f'  (data (i32.const {RNG.randrange(1 << 20)}) "{text}")\n'


def integer():
    return RNG.choice(["0x%x", "-0x%x", "%d", "-%d"]) % RNG.choice([0, 1, RNG.randrange(1 << 31), 0x7FFFFFFF])


def real():
    return RNG.choice([f"0x1.{RNG.getrandbits(44):x}p{RNG.randrange(-100, 100)}", "-0x1p-1074", "nan", "nan:0x200000", "inf", f"{RNG.uniform(-1e5, 1e5):g}"])


def asserted():
    return RNG.choice([
        f'(assert_return (invoke "add" (i32.const {integer()}) (i32.const {integer()})) (i32.const {integer()}))\n',
        f'(assert_return (invoke "f64.copysign" (f64.const {real()}) (f64.const {real()})) (f64.const {real()}))\n',
        f'(assert_trap (invoke "div_s" (i32.const {integer()}) (i32.const 0)) "integer divide by zero")\n',
        f'(assert_invalid (module (func $f (result i32) (i64.const {integer()}))) "type mismatch")\n'])


def binary():
    lines = [f'    "{escapes(RNG.randrange(1, 12))}"   ;; Code section, {RNG.randrange(99)} bytes\n' for _ in range(RNG.randrange(3, 20))]
    return '(assert_malformed\n  (module binary\n    "\\00asm" "\\01\\00\\00\\00"\n' + "".join(lines) + '  )\n  "unexpected end"\n)\n'


def commented():
    lines = [f"  ;; {' '.join(RNG.choices(PROSE, k=RNG.randint(5, 14)))}\n" for _ in range(3)]
    return "".join(lines) + f"  (func $f{RNG.randrange(9999)} (param $x i32) (result i32) local.get $x)\n"


def said():
    return RNG.choice([
        f"  ;; {RNG.choice(SAID)} {RNG.randrange(999)}\n", f"  (; {RNG.choice(SAID)} ;)\n",
        f'  (data (i32.const 8) "{RNG.choice(SAID)} naïve café")\n', "  (func $f (param $x i32) (result i32) local.get $x i32.const 1 i32.add)\n"])


def many(piece, size):
    """Returns random pieces of at least `size` bytes together."""
    parts, length = [], 0
    while length < size:
        parts.append(piece())
        length += len(parts[-1].encode())
    return "".join(parts)


def refused(at, word):
    words = [str(RNG.randrange(1 << 31)) for _ in range(23_000)]
    words[at - 1] = word
    return "\n".join(words) + "\n"


def main():
    folder = pathlib.Path(sys.argv[1])
    size = int(float(sys.argv[2]) * 1e6) if len(sys.argv) > 2 else 8_000_000
    pieces = {"flat": function, "minified": squeezed, "folded": lambda: f"(func (result i32) {expression(9)})\n", "mangled": lambda: by_names(mangled),
              "quoted": lambda: by_names(lambda: f'"{written_out()}"'), "data": segment, "asserts": asserted, "binary": binary, "comments": commented, "unicode": said}
    texts = {name: many(piece, size) for name, piece in pieces.items()}
    texts["crlf"] = texts["flat"].replace("\n", "\r\n")
    texts["data_one"] = f'(module (memory 200) (data (i32.const 0) "{escapes(size // 3)}"))\n'
    texts |= {"refused_20": refused(20, "word"), "refused_20000": refused(20_000, "word"), "fault_20": refused(20, "\x01")}
    texts |= {f"files/{number:03}": f"(module\n{many(function, RNG.randint(200, 2600))})\n" for number in range(300)}
    (folder / "files").mkdir(parents=True, exist_ok=True)
    for name, text in texts.items():
        (folder / f"{name}.wat").write_text(text, encoding="utf-8", newline="")


if __name__ == "__main__":
    main()
