//! Name annotations. The expected names are derived from the name section (7.4.1 of WebAssembly 2.0, and the extended-name-section proposal) and from
//! the name annotations of 3.0.

use wat_modules::{Parser, parse_str};

/// The subsections of a name section, each with its id.
const MODULE: u8 = 0;
const FUNCS: u8 = 1;
const LOCALS: u8 = 2;
const LABELS: u8 = 3;
const TYPES: u8 = 4;
const TABLES: u8 = 5;
const MEMORIES: u8 = 6;
const GLOBALS: u8 = 7;
const ELEMS: u8 = 8;
const DATAS: u8 = 9;

/// Returns the content of the name section that ends a module, after its name; empty if there is none.
fn names(bytes: &[u8]) -> &[u8] {
    let name = b"\x04name";
    let at = bytes.windows(name.len()).position(|found| found == name);
    at.map_or(&[], |at| &bytes[at + name.len()..])
}

/// The id of a subsection and its content.
type Subsection = (u8, &'static [u8]);

/// A text and the subsections of its name section.
type Case = (&'static str, &'static [Subsection]);

const CASES: [Case; 34] = [
    // Modules.
    ("(module (@name \"m\"))", &[(MODULE, b"\x01m")]),
    ("(module $a (@name \"m\"))", &[(MODULE, b"\x01m")]),
    ("(module $a (@name \"\"))", &[(MODULE, b"\x00")]),
    // Fields, with and without an identifier.
    ("(func (@name \"f\"))", &[(FUNCS, b"\x01\x00\x01f")]),
    ("(func $a (@name \"f\"))", &[(FUNCS, b"\x01\x00\x01f")]),
    (
        "(func $a (@name \"f\") (export \"e\"))",
        &[(FUNCS, b"\x01\x00\x01f")],
    ),
    (
        "(func $a) (func (@name \"a\"))",
        &[(FUNCS, b"\x02\x00\x01a\x01\x01a")],
    ),
    (
        "(table $t (@name \"x\") 1 funcref)",
        &[(TABLES, b"\x01\x00\x01x")],
    ),
    ("(memory (@name \"x\") 1)", &[(MEMORIES, b"\x01\x00\x01x")]),
    (
        "(global (@name \"x\") i32 (i32.const 0))",
        &[(GLOBALS, b"\x01\x00\x01x")],
    ),
    (
        "(type $t (@name \"x\") (func))",
        &[(TYPES, b"\x01\x00\x01x")],
    ),
    ("(elem (@name \"x\") func)", &[(ELEMS, b"\x01\x00\x01x")]),
    (
        "(elem $e (@name \"x\") declare func)",
        &[(ELEMS, b"\x01\x00\x01x")],
    ),
    ("(data (@name \"x\") \"abc\")", &[(DATAS, b"\x01\x00\x01x")]),
    // Imports. Only functions are named.
    (
        "(import \"\" \"\" (func $f (@name \"x\")))",
        &[(FUNCS, b"\x01\x00\x01x")],
    ),
    (
        "(func $f (@name \"x\") (import \"\" \"\"))",
        &[(FUNCS, b"\x01\x00\x01x")],
    ),
    (
        "(memory $m (@name \"x\") (import \"\" \"\") 1)",
        &[(MEMORIES, b"\x01\x00\x01m")],
    ),
    ("(memory (@name \"x\") (import \"\" \"\") 1)", &[]),
    // References are resolved by identifiers.
    (
        "(func $f (@name \"x\") (call $f)) (export \"e\" (func $f)) (start $f)",
        &[(FUNCS, b"\x01\x00\x01x")],
    ),
    // Parameters and locals.
    (
        "(func (param (@name \"x\") i32))",
        &[(LOCALS, b"\x01\x00\x01\x00\x01x")],
    ),
    (
        "(func (param $p (@name \"x\") i32))",
        &[(LOCALS, b"\x01\x00\x01\x00\x01x")],
    ),
    (
        "(func (param $p i32) (param i32 i32) (local $a i32) (local (@name \"x\") i32) local.get $a drop)",
        &[(LOCALS, b"\x01\x00\x03\x00\x01p\x03\x01a\x04\x01x")],
    ),
    (
        "(func (param (@name \"x\") i32) (local $a (@name \"y\") i32))",
        &[(LOCALS, b"\x01\x00\x02\x00\x01x\x01\x01y")],
    ),
    // The parameters of the type come first, even if they are not declared.
    (
        "(type (func (param i32 i32))) (func (type 0) (local (@name \"x\") i32))",
        &[(LOCALS, b"\x01\x00\x01\x02\x01x")],
    ),
    (
        "(type (func (param i32 i32))) (func (type 0) (param) (local (@name \"x\") i32))",
        &[(LOCALS, b"\x01\x00\x01\x02\x01x")],
    ),
    // The parameters of types and of imported functions have no names.
    ("(type (func (param (@name \"x\") i32)))", &[]),
    ("(import \"\" \"\" (func (param (@name \"x\") i32)))", &[]),
    // Labels. That of a folded `if` comes after those in its condition.
    (
        "(func block (@name \"x\") end loop $l (@name \"y\") end)",
        &[(LABELS, b"\x01\x00\x02\x00\x01x\x01\x01y")],
    ),
    (
        "(func (block $a (br $a)) (block $b (@name \"x\") (br $b)))",
        &[(LABELS, b"\x01\x00\x02\x00\x01a\x01\x01x")],
    ),
    (
        "(func (if (@name \"x\") (block (@name \"y\") (result i32) (i32.const 0)) (then block (@name \"z\") end)))",
        &[(LABELS, b"\x01\x00\x03\x00\x01y\x01\x01x\x02\x01z")],
    ),
    (
        "(global i32 (block (@name \"x\") (result i32) (i32.const 0)))",
        &[],
    ),
    // The name of the annotation is a string, and its string has escapes.
    (
        "(func (@\"\\6eame\" \"\\41\\u{e9}\"))",
        &[(FUNCS, b"\x01\x00\x03A\xc3\xa9")],
    ),
    // Comments and other annotations are whitespace, and what is in them.
    (
        "(func (;c;) (@a (@name)) (@name (@b) \"x\" ;; d\n))",
        &[(FUNCS, b"\x01\x00\x01x")],
    ),
    ("(@custom \"a\" (@name \"x\"))", &[]),
];

#[test]
fn annotations() {
    for (text, subsections) in CASES {
        let mut expected = Vec::new();
        for (id, content) in subsections {
            expected.push(*id);
            expected.push(u8::try_from(content.len()).unwrap());
            expected.extend_from_slice(content);
        }
        let bytes = parse_str(text).unwrap_or_else(|error| panic!("{text}: {error}"));
        assert_eq!(names(&bytes), expected, "{text}");
    }
}

/// Each text with the offset and the message of its error.
const ERRORS: [(&str, usize, &str); 24] = [
    ("(func (@name))", 12, "expected a string"),
    ("(func (@name x))", 13, "expected a string"),
    ("(func (@name \"\\ff\"))", 18, "malformed UTF-8 encoding"),
    ("(func (@name \"a\" \"b\"))", 17, "expected `)`"),
    ("(func (@name \"a\") (@name \"b\"))", 18, MISPLACED),
    (
        "(func (@name \"a\") $f)",
        18,
        "annotation `@name` before the identifier",
    ),
    ("(func (param (@name \"x\")))", 24, "expected a keyword"),
    ("(func (param (@name \"x\") i32 i32))", 29, "expected `)`"),
    (
        "(func (param i32 (@name \"x\") i32))",
        17,
        "expected a keyword",
    ),
    ("(@name \"a\")", 0, MISPLACED),
    ("(@name \"a\") (module)", 0, MISPLACED),
    ("(module) (@name \"a\")", 9, MISPLACED),
    ("(module (func) (@name \"a\"))", 15, MISPLACED),
    ("(func (export \"e\") (@name \"a\"))", 19, MISPLACED),
    ("(func (nop (@name \"a\")))", 11, MISPLACED),
    (
        "(func block (result i32) (@name \"a\") unreachable end)",
        25,
        MISPLACED,
    ),
    (
        "(func i32.const 0 block (param (@name \"a\") i32) drop end)",
        31,
        MISPLACED,
    ),
    (
        "(func) (export \"e\" (func (@name \"a\") 0))",
        25,
        MISPLACED,
    ),
    ("(func) (start (@name \"a\") 0)", 14, MISPLACED),
    ("(type (func)) (func (type (@name \"a\") 0))", 26, MISPLACED),
    ("(type (func (@name \"a\")))", 12, MISPLACED),
    (
        "(import \"\" \"\" (table (@name \"a\") 1 funcref))",
        21,
        MISPLACED,
    ),
    (
        "(import \"\" (@name \"a\") \"\" (func))",
        11,
        "expected a string",
    ),
    // The error of a custom annotation is first.
    ("(func (@name)) (@custom)", 23, "expected a string"),
];

const MISPLACED: &str = "annotation `@name` where no identifier may be";

#[test]
fn errors() {
    for (text, offset, message) in ERRORS {
        let Err(error) = parse_str(text) else {
            panic!("{text} is accepted");
        };
        assert_eq!(error.span().offset(), offset, "{text}");
        assert_eq!(error.message(), message, "{text}");
    }
}

#[test]
fn no_names() {
    let mut parser = Parser::new();
    parser.names(false);
    let bytes = parser.parse_str(None, "(func $f (@name \"x\"))").unwrap();
    assert_eq!(names(&bytes), b"");
}
