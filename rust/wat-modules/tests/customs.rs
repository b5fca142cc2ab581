//! Custom annotations. The expected bytes are derived from chapter 5.5 of WebAssembly 2.0 and from the custom annotations of 3.0.

use wat_modules::{Parser, parse_str};

const TYPE: &[u8] = b"\x01\x04\x01\x60\x00\x00";
const FUNC: &[u8] = b"\x03\x02\x01\x00";
const CODE: &[u8] = b"\x0a\x04\x01\x02\x00\x0b";
const A: &[u8] = b"\x00\x03\x01aA";
const B: &[u8] = b"\x00\x03\x01bB";

/// Each text with the sections of its binary.
const CASES: [(&str, &[&[u8]]); 21] = [
    ("", &[]),
    ("(@custom \"a\" \"A\")", &[A]),
    ("(module (@custom \"a\" \"A\"))", &[A]),
    (
        "(module $m (@custom \"a\" \"A\"))",
        &[b"\x00\x09\x04name\x00\x02\x01m", A],
    ),
    // A section of this name does not replace the name section.
    (
        "(module $m (@custom \"name\" \"\\00\\02\\01x\"))",
        &[
            b"\x00\x09\x04name\x00\x02\x01m",
            b"\x00\x09\x04name\x00\x02\x01x",
        ],
    ),
    ("(@custom \"a\" \"A\") (func)", &[TYPE, FUNC, CODE, A]),
    (
        "(func) (@custom \"a\" \"A\") (@custom \"b\" \"B\")",
        &[TYPE, FUNC, CODE, A, B],
    ),
    (
        "(func) (@custom \"a\" (before first) \"A\")",
        &[A, TYPE, FUNC, CODE],
    ),
    (
        "(func) (@custom \"a\" (after last) \"A\")",
        &[TYPE, FUNC, CODE, A],
    ),
    (
        "(func) (@custom \"a\" (before type) \"A\")",
        &[A, TYPE, FUNC, CODE],
    ),
    (
        "(func) (@custom \"a\" (after type) \"A\")",
        &[TYPE, A, FUNC, CODE],
    ),
    (
        "(func) (@custom \"a\" (before code) \"A\") (@custom \"b\" (after func) \"B\")",
        &[TYPE, FUNC, B, A, CODE],
    ),
    // The order of two sections at one placement is that of the text.
    (
        "(func) (@custom \"b\" (after func) \"B\") (@custom \"a\" (after func) \"A\")",
        &[TYPE, FUNC, B, A, CODE],
    ),
    // A section that the module does not have.
    (
        "(func) (@custom \"a\" (before memory) \"A\") (@custom \"b\" (after tag) \"B\")",
        &[TYPE, FUNC, A, B, CODE],
    ),
    (
        "(func) (@custom \"a\" (before datacount) \"A\")",
        &[TYPE, FUNC, A, CODE],
    ),
    // The bytes are those of all strings, and may be none.
    (
        "(@custom \"\" \"\\00\" \"\" \"\\ff\")",
        &[b"\x00\x03\x00\x00\xff"],
    ),
    ("(@custom \"\\c3\\a9\")", &[b"\x00\x03\x02\xc3\xa9"]),
    // Comments and other annotations are whitespace.
    (
        "(@custom (;c;) \"a\" (@other (@custom)) \"A\" ;; d\n)",
        &[A],
    ),
    ("(@\"\\63ustom\" \"a\" \"A\")", &[A]),
    ("(func (@other (@custom)))", &[TYPE, FUNC, CODE]),
    ("(@customs \"a\")", &[]),
];

#[test]
fn sections() {
    for (text, sections) in CASES {
        let mut expected = b"\0asm\x01\0\0\0".to_vec();
        for section in sections {
            expected.extend_from_slice(section);
        }
        assert_eq!(parse_str(text).expect(text), expected, "{text}");
    }
}

/// Each text with the offset and the message of its error.
const ERRORS: [(&str, usize, &str); 16] = [
    ("(@custom)", 8, "expected a string"),
    ("(@custom 4)", 9, "expected a string"),
    ("(@custom \"\\df\")", 14, "malformed UTF-8 encoding"),
    ("(@custom \"a\" here)", 13, "expected a string"),
    ("(@custom \"a\" (type))", 14, "expected `before` or `after`"),
    (
        "(@custom \"a\" (before types))",
        21,
        "expected `first` or a section",
    ),
    (
        "(@custom \"a\" (after first))",
        20,
        "expected `last` or a section",
    ),
    ("(@custom \"a\" (before type \"\"))", 26, "expected `)`"),
    (
        "(@custom \"a\" \"b\" (before type))",
        17,
        "expected a string",
    ),
    (
        "(func (@custom \"a\"))",
        6,
        "annotation `@custom` where no field may be",
    ),
    (
        "(@custom \"a\") (module)",
        0,
        "annotation `@custom` where no field may be",
    ),
    (
        "(module) (@custom \"a\")",
        9,
        "annotation `@custom` where no field may be",
    ),
    (
        "(module (@custom \"a\") $x)",
        8,
        "annotation `@custom` where no field may be",
    ),
    (
        "(@custom \"a\" (@custom \"b\"))",
        14,
        "expected `before` or `after`",
    ),
    // An error of the module comes first, and without its end an annotation is one.
    ("(@custom 4) (func frob)", 18, "unknown instruction `frob`"),
    ("(@custom \"a\"", 1, "unclosed annotation"),
];

#[test]
fn errors() {
    for (text, offset, message) in ERRORS {
        let error = parse_str(text).expect_err(text);
        assert_eq!(
            (error.span().offset(), error.message().as_str()),
            (offset, message),
            "{text}"
        );
    }
}

#[test]
fn without_names_there_are_no_custom_sections() {
    let bytes = Parser::new()
        .names(false)
        .compile("(module (@custom \"a\"))")
        .unwrap();
    assert_eq!(bytes, b"\0asm\x01\0\0\0");
}
