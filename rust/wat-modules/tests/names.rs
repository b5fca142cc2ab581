//! The name section. The expected bytes are derived from chapter 7.4.1 of WebAssembly 2.0 and from the extended-name-section proposal.

use wat_lex::shim::alloc::Global;
use wat_modules::proved::{compile, compile_with_names};

/// Each text with the subsections of its name section. A text without subsections has no name section.
const CASES: [(&str, &[u8]); 28] = [
    // No identifier.
    ("", b""),
    ("(module)", b""),
    (
        "(module (type (func)) (import \"a\" \"b\" (func)) (table 0 funcref) (memory 0) (func (export \"e\") (local i32) block end))",
        b"",
    ),
    // 0, the module: its name, after the size of the subsection.
    ("(module $M)", b"\x00\x02\x01M"),
    ("(module $\"a b\" (func))", b"\x00\x04\x03a b"),
    // 1, functions: the number of names, and the index and the name of each. Imports are counted first.
    ("(func $f)", b"\x01\x04\x01\x00\x01f"),
    ("(func) (func $g)", b"\x01\x04\x01\x01\x01g"),
    (
        "(import \"a\" \"b\" (func $i)) (import \"a\" \"c\" (func)) (func $ff) (func) (func $g)",
        b"\x01\x0b\x03\x00\x01i\x02\x02ff\x04\x01g",
    ),
    (
        "(func $i (import \"a\" \"b\")) (func $f)",
        b"\x01\x07\x02\x00\x01i\x01\x01f",
    ),
    // An index space has its own indices: other imports do not count.
    (
        "(import \"a\" \"b\" (memory 0)) (import \"a\" \"c\" (global i32)) (func $f)",
        b"\x01\x04\x01\x00\x01f",
    ),
    // 2, locals: the number of functions, and the index of each with its name map. The parameters come first.
    (
        "(func $f (param $x i32) (param i64) (local $y f32))",
        b"\x01\x04\x01\x00\x01f\x02\x09\x01\x00\x02\x00\x01x\x02\x01y",
    ),
    // Imported functions have an index. Their parameters and those of types have no entry; a function without names has none.
    (
        "(type $t (func (param $a i32))) (import \"a\" \"b\" (func (param $p i32))) (func (param i32)) (func (local $l i32))",
        b"\x02\x06\x01\x02\x01\x00\x01l\x04\x04\x01\x00\x01t",
    ),
    // The parameters of a type use with an index only are counted.
    (
        "(type (func (param i32 i32))) (func (type 0) (local $z i32)) (func (type 0) (param $p i32) (param i32) (local $q i32))",
        b"\x02\x0e\x02\x00\x01\x02\x01z\x01\x02\x00\x01p\x02\x01q",
    ),
    // 3, labels: those of `block`, `loop` and `if`, in the order of these instructions. All of them are counted.
    (
        "(func block $a loop if $b end end end block $a end)",
        b"\x03\x0c\x01\x00\x03\x00\x01a\x02\x01b\x03\x01a",
    ),
    // A label after `end` or `else`, or of a branch, is that of its block.
    (
        "(func block $a br $a br_table $a $a end $a i32.const 0 if $b else $b end $b)",
        b"\x03\x09\x01\x00\x02\x00\x01a\x01\x01b",
    ),
    // A folded `if` comes after its condition.
    (
        "(import \"a\" \"b\" (func)) (func (block (loop $l (br $l))) (if $a (block $b (result i32) (i32.const 1)) (then) (else)))",
        b"\x03\x0c\x01\x01\x03\x01\x01l\x02\x01b\x03\x01a",
    ),
    (
        "(func (if $c (if (result i32) (i32.const 1) (then (block $d (result i32) (i32.const 2))) (else (i32.const 1))) (then (block $e))))",
        b"\x03\x0c\x01\x00\x03\x01\x01d\x02\x01c\x03\x01e",
    ),
    // Nested conditions, and operands of plain instructions.
    (
        "(func (if $a (if $b (result i32) (loop $c (result i32) (i32.const 0)) (then (i32.const 1)) (else (i32.const 2))) (then)))",
        b"\x03\x0c\x01\x00\x03\x00\x01c\x01\x01b\x02\x01a",
    ),
    (
        "(func (drop (i32.add (block $a (result i32) (i32.const 0)) (block (result i32) (i32.const 0)))) (block $b))",
        b"\x03\x09\x01\x00\x02\x00\x01a\x02\x01b",
    ),
    // 4, types: those that type fields define. The type that `$f` adds has no name.
    (
        "(type (func (result i32))) (func $f) (type $t (func (param $x i64)))",
        b"\x01\x04\x01\x00\x01f\x04\x04\x01\x01\x01t",
    ),
    // 5, tables.
    (
        "(import \"a\" \"b\" (table $t 0 funcref)) (table $u 0 externref)",
        b"\x05\x07\x02\x00\x01t\x01\x01u",
    ),
    // 6, memories.
    (
        "(import \"a\" \"b\" (memory $m 0)) (memory 0) (memory $n 0)",
        b"\x06\x07\x02\x00\x01m\x02\x01n",
    ),
    // 7, globals.
    (
        "(import \"a\" \"b\" (global i32)) (global $g i32 (i32.const 0))",
        b"\x07\x04\x01\x01\x01g",
    ),
    // 8, element segments. The inline elements of a table are a segment without a name.
    ("(elem $e func)", b"\x08\x04\x01\x00\x01e"),
    (
        "(table funcref (elem)) (elem func) (elem $e declare func)",
        b"\x08\x04\x01\x02\x01e",
    ),
    // 9, data segments. The inline data of a memory are a segment without a name.
    ("(data $d \"x\")", b"\x09\x04\x01\x00\x01d"),
    (
        "(memory (data \"x\")) (data $d \"y\") (data)",
        b"\x09\x04\x01\x01\x01d",
    ),
    // All subsections, in the order of their ids.
    (
        "(module $M (data $d) (elem $e func) (global $g i32 (i32.const 0)) (memory $m 0) (table $t 0 funcref) (func $f (local $v i32) (block $b)) (type $y (func)))",
        b"\x00\x02\x01M\x01\x04\x01\x00\x01f\x02\x06\x01\x00\x01\x00\x01v\x03\x06\x01\x00\x01\x00\x01b\x04\x04\x01\x00\x01y\x05\x04\x01\x00\x01t\x06\x04\x01\x00\x01m\x07\x04\x01\x00\x01g\x08\x04\x01\x00\x01e\x09\x04\x01\x00\x01d",
    ),
];

/// Returns an unsigned integer in LEB128.
fn leb128(mut number: usize) -> Vec<u8> {
    let mut bytes = Vec::new();
    while number >= 0x80 {
        bytes.push(u8::try_from(number & 0x7f).unwrap() | 0x80);
        number >>= 7;
    }
    bytes.push(u8::try_from(number).unwrap());
    bytes
}

/// Returns the custom section `name` with these subsections, or no bytes if there are none.
fn section(subsections: &[u8]) -> Vec<u8> {
    if subsections.is_empty() {
        return Vec::new();
    }
    let content = [b"\x04name", subsections].concat();
    [&[0], &*leb128(content.len()), &*content].concat()
}

/// Checks that a text compiles to a module, followed by a name section with these subsections.
fn check(text: &str, subsections: &[u8]) {
    let module = Vec::from(compile(Global, text).unwrap());
    let named = Vec::from(compile_with_names(Global, text).unwrap());
    assert_eq!(named, [module, section(subsections)].concat(), "{text}");
}

#[test]
fn texts_have_the_name_sections_of_the_table() {
    for (text, subsections) in CASES {
        check(text, subsections);
    }
}

#[test]
fn indices_and_sizes_above_127_have_two_bytes() {
    let name = "n".repeat(200);
    let text = format!("{}(func ${name})", "(func)".repeat(128));
    let names = [b"\x01\x80\x01\xc8\x01", name.as_bytes()].concat();
    check(&text, &[b"\x01\xcd\x01", &*names].concat());
}

#[test]
fn errors_are_those_without_names() {
    for text in [
        "(func $f) (func $f)",
        "(module $M",
        "(func $f ?)",
        "(func $f (;",
    ] {
        let error = compile(Global, text).unwrap_err();
        let named = compile_with_names(Global, text).unwrap_err();
        assert_eq!(named.to_string(), error.to_string(), "{text}");
    }
}
