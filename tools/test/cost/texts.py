"""Texts of one kind each, in any size, for tools/test/cost.py."""
import itertools
import pathlib
import sys

sys.path.append(str(pathlib.Path(__file__).resolve().parents[2] / "lib"))

import generate_kinds

VALUES = ["i32", "i64", "f32", "f64"]
# The kinds of tokens among those of the benchmarks that differ in how they are lexed.
TOKENS = (
    "blanks_indent line_comments line_long block_comments ids_short ids_long ids_quoted ids_escaped keywords integers integers_long floats "
    "strings_short strings_long strings_escapes strings_unicode"
).split()
WHOLE = "blanks_one block_long block_nested id_one parens".split()


def padded(text, size):
    return text + " " * (size - len(text.encode()))


def lines(line, head="(module\n", tail=")\n", close=""):
    """Returns a function from a size to a text of this size: HEAD, the lines 0, 1, 2, .. as long as they fit, CLOSE for each of them, TAIL, spaces.
    HEAD may be a function of the size."""
    def text_of(size):
        parts = [head(size) if callable(head) else head]
        length = len((parts[0] + tail).encode())
        for i in itertools.count():
            part = line(i)
            length += len(part.encode()) + len(close)
            if length > size:
                return padded("".join(parts) + i * close + tail, size)
            parts.append(part)
        return None
    return text_of


def repeated(part, close=""):
    return lines(lambda _: part, "", "", close)


def tokens_of(piece):
    """Returns a function like that of `lines` for random pieces, the same ones for each size."""
    def text_of(size):
        generate_kinds.RNG.seed(7)
        return lines(lambda _: piece(), "", "")(size)
    return text_of


def types(i):
    """Returns 8 value types, which are different for each `i` below 65,536."""
    return " ".join(VALUES[i >> 2 * k & 3] for k in range(8))


def body(line, close="", tail=")\n"):
    """Returns a function like that of `lines` for a module of one function with this body."""
    return lines(line, "(module (func\n", ")" + tail, close)


def wide_type(size):
    """Returns the head of a module with a function type of many parameters, which are half of the text."""
    return f"(module (type (func (param{size // 8 * ' i32'})))\n"


LEXICAL = {
    "wide": repeated(';; 漢字😀 größer\n"漢字😀" '),
    "annotations_shown": repeated('(@a (b "c")) x\n'),
    "annotations_hidden": repeated('(@z (b "c")) x\n'),
    "annotations_deep": repeated("(@a ", ")"),
    "errors_line": repeated("é "),
    "errors_lines": repeated("é\n"),
    "errors_strings": repeated('"\\q" '),
    "errors_comments": repeated("(;"),
    "error_at_end": lines(lambda _: "nop ", "", "é"),
    "error_of_tabs": lines(lambda _: "\t", "é", ""),
    "unformatted": repeated("( module\n( func  )\n )\n"),
}

MODULES = {
    "functions": lines(lambda i: f"(func $f{i} (param $x i32) (result i32) local.get $x call $f{i * 7919 % (i + 1)})\n"),
    "fields": lines(lambda _: "(func)\n"),
    "types": lines(lambda i: f"(type (func (param {types(i)})))\n"),
    "types_inline": lines(lambda i: f"(func (param {types(i)}))\n"),
    "types_named": lines(lambda i: f"(type $t{i} (func))\n"),
    "globals": lines(lambda i: f"(global $g{i} (mut i32) (i32.const {i}))\n"),
    "imports": lines(lambda i: f'(import "env" "f{i}" (func $f{i} (param i32)))\n'),
    "exports": lines(lambda i: f'(export "name{i}" (func 0))\n', "(module (func)\n"),
    "data": lines(lambda i: '(data "abc")\n'),
    "data_one": lines(lambda i: "abcdefg\\00", '(module (memory 1) (data (i32.const 0) "', '"))\n'),
    "data_strings": lines(lambda i: f' "abcd\\n{i}"', "(module (memory 1) (data (i32.const 0)", "))\n"),
    # A few more tokens than a power of two: their vector has the capacity of twice as many, and raises the peak if it is kept while bytes are
    # written.
    "data_words": lines(lambda _: ' "abcdefghijklm"', "(module (memory 1) (data (i32.const 0)", "))\n"),
    "elements": lines(lambda i: " $first $second", "(module (func $first) (func $second) (table 1 funcref) (elem (i32.const 0)", "))\n"),
    "locals": lines(lambda i: " i32", "(module (func (local", ")))\n"),
    "locals_by_functions": lines(lambda i: f"(func (local{32 * ' i32'}))\n"),
    "locals_named": body(lambda i: f"(local $x{i} i32)\n"),
    "comment": lines(lambda i: "lorem ipsum dolor (sit) amet\n", "(module (;", ";))\n"),
    "nops": body(lambda i: "nop "),
    "bodies": lines(lambda _: f"(func{9 * ' nop'})\n"),
    "constants": body(lambda i: f"i32.const {i} f64.const {i}.5e1 drop drop\n"),
    "folded": lines(lambda i: "(drop (i32.add (i32.const 1) (local.get 2)))\n", "(module (func (local i32 i32 i32)\n", "))\n"),
    "folded_deep": body(lambda i: "(block ", ")"),
    "blocks_deep": body(lambda i: "block ", "end "),
    "labels": body(lambda i: f"block $l{i} br $l{i} end\n"),
    "labels_deep": body(lambda i: f"block $l{i} br $l0\n", "end "),
    "branch_tables": lines(lambda i: " $a $b 0 1", "(module (func block $a block $b i32.const 0 br_table", " end end))\n"),
    "error_of_module": lines(lambda i: f"(func $f{i} i32.const {i})\n", tail="(func frob))\n"),
    # Half of the text is a type, and half are its uses. None of these takes time or memory in proportion to the type.
    "uses_by_functions": lines(lambda _: "(func (type 0))\n", wide_type),
    "uses_by_imports": lines(lambda _: '(import "" "" (func (type 0)))\n', wide_type),
    "uses_by_blocks": lines(lambda _: "(block (type 0))\n", lambda size: wide_type(size) + "(func\n", "))\n"),
    "uses_by_calls": lines(lambda _: "(call_indirect (type 0))\n", lambda size: wide_type(size) + "(table 1 funcref) (func\n", "))\n"),
}


def kinds():
    """Returns a function from a size to a text for each kind, by name."""
    tokens = {name: tokens_of(generate_kinds.PIECES[name]) for name in TOKENS}
    whole = {name: lambda size, make=generate_kinds.WHOLE[name]: padded(make(size - 8), size) for name in WHOLE}
    return {**tokens, **whole, **LEXICAL, **MODULES}
