//! The calls with the names of the crate `wat`, and the texts for which the results differ from those of `wat`.

use std::borrow::Cow;
use std::error::Error as _;
use std::path::{Path, PathBuf};
use wat_modules::{Detect, Error, Parser, parse_bytes, parse_str};

/// The bytes of a module without fields.
const EMPTY: &[u8] = b"\0asm\x01\0\0\0";

#[test]
fn kinds_of_contents_are_detected() {
    let rows: [(&[u8], Detect); 14] = [
        (b"\0asm", Detect::WasmBinary),
        (b"\0asm\x02\xff", Detect::WasmBinary),
        (b"\0as", Detect::Unknown),
        (b" \0asm", Detect::Unknown),
        (b"(module)", Detect::WasmText),
        (b"(", Detect::WasmText),
        (b"\t\r\n (;(; ;);) ;; a\n(", Detect::WasmText),
        ("(;\u{202e};)(".as_bytes(), Detect::WasmText),
        (b"(\xff", Detect::Unknown),
        (b"(; open (module)", Detect::Unknown),
        (b";; (module)", Detect::Unknown),
        (b"module", Detect::Unknown),
        (b")", Detect::Unknown),
        (b"", Detect::Unknown),
    ];
    for (bytes, kind) in rows {
        let shown = bytes.escape_ascii();
        assert_eq!(Detect::from_bytes(bytes), kind, "{shown}");
        assert_eq!(kind.is_wasm(), kind != Detect::Unknown, "{shown}");
    }
}

#[test]
fn bytes_are_compiled_or_returned() {
    for binary in [EMPTY, b"\0asm", b"\0asm\xff(module"] {
        let result = parse_bytes(binary).unwrap();
        assert!(matches!(result, Cow::Borrowed(bytes) if bytes == binary));
    }
    let result = parse_bytes(b" (module)").unwrap();
    assert!(matches!(result, Cow::Owned(bytes) if bytes == EMPTY));
}

/// The message for a module without `)`.
const UNCLOSED: &str = "expected a module field or `)`, found the end of the text";

#[test]
fn errors_have_messages_and_offsets() {
    let rows: [(&[u8], &str, usize); 5] = [
        (b"(module", UNCLOSED, 7),
        (b"\0as", "unexpected character '\\u{0}'", 0),
        (b"(\n(\xff", "the text is not UTF-8", 3),
        (b"(data \"\xe2\x80\"", "the text is not UTF-8", 7),
        (b"(data \"\\q\")", "invalid string escape 'q'", 8),
    ];
    for (bytes, message, offset) in rows {
        let error = parse_bytes(bytes).unwrap_err();
        let shown = (error.message(), error.span().offset());
        assert_eq!(shown, (message.to_owned(), offset));
        let is_lexical = error.lex_error().map(ToString::to_string) == Some(error.message());
        assert_eq!(is_lexical, message.contains('\''), "{message}");
        assert!(error.source().is_none() && !error.is_out_of_memory());
    }
    let error = parse_bytes(b"(\n(a \xff").unwrap_err();
    assert_eq!(
        error.to_string(),
        "the text is not UTF-8\n     --> <anon>:2:4\n      |\n    2 | (a \n      |    ^"
    );
}

/// Returns the path that an error prints.
fn path_of(error: &Error) -> String {
    let printed = error.to_string();
    let (_, location) = printed.split_once("--> ").unwrap();
    location.split_once(':').unwrap().0.to_owned()
}

#[test]
fn errors_have_the_path_that_is_set_first() {
    let path = Some(Path::new("a.wat"));
    let parser = Parser::default();
    for text in ["(module", "(\"", "?"] {
        let from_bytes = |path| parser.parse_bytes(path, text.as_bytes()).unwrap_err();
        let from_str = |path| parser.parse_str(path, text).unwrap_err();
        for error in [from_bytes(path), from_str(path)] {
            assert_eq!(path_of(&error), "a.wat");
        }
        for mut error in [from_bytes(None), from_str(None)] {
            assert_eq!(path_of(&error), "<anon>");
            error.set_path("b.wat");
            error.set_path(PathBuf::from("c.wat"));
            assert_eq!(path_of(&error), "b.wat");
        }
    }
    let not_utf8 = parser.parse_bytes(path, b"\xff").unwrap_err();
    assert_eq!(path_of(&not_utf8), "a.wat");
    assert_eq!(parser.parse_bytes(path, b"(module)").unwrap(), EMPTY);
    assert_eq!(parser.parse_str(None, String::new()).unwrap(), EMPTY);
}

#[test]
fn errors_become_errors_of_the_lexer() {
    let error = wat_lex::Error::from(parse_str("(module").unwrap_err());
    let shown = (error.message(), error.span().offset());
    assert_eq!(shown, (UNCLOSED.to_owned(), 7));

    let refused = wat_lex::Error::from(wat_lex::proved::error::Error::out_of_memory());
    let error = Error::from(refused);
    assert!(error.is_out_of_memory());
    assert_eq!(error.to_string(), "out of memory");
    assert_eq!((error.span().offset(), error.lex_error()), (0, None));
}

#[test]
fn names_are_written_unless_the_option_is_off() {
    let module: &[u8] = b"\0asm\x01\0\0\0\x01\x04\x01\x60\0\0\x03\x02\x01\0\x0a\x04\x01\x02\0\x0b";
    let named = [module, b"\0\x0b\x04name\x01\x04\x01\0\x01f"].concat();
    let text = "(func $f)";
    assert_eq!(parse_str(text).unwrap(), named);
    assert_eq!(*parse_bytes(text.as_bytes()).unwrap(), named);
    let mut parser = Parser::new();
    for (names, bytes) in [(false, module), (true, &named)] {
        parser.names(names);
        assert_eq!(parser.compile(text).unwrap(), bytes);
        assert_eq!(parser.parse_str(None, text).unwrap(), bytes);
        let result = parser.parse_bytes(None, text.as_bytes());
        assert_eq!(*result.unwrap(), *bytes);
    }
    for parser in [Parser::new(), Parser::default()] {
        assert_eq!(parser.compile(text).unwrap(), named);
    }
}

/// Rejects a text of each kind that only `wat` accepts, by the README's list of differences.
#[test]
fn texts_that_only_wat_accepts() {
    let rows = [
        ("(memory i64 1)", 8),
        ("(memory 1 1 shared)", 12),
        ("(memory 1 (pagesize 1))", 10),
        ("(memory 1) (func memory.size 0 drop)", 29),
        ("(tag)", 1),
        ("(rec (type (func)))", 1),
        ("(type (struct))", 6),
        ("(func (param anyref))", 13),
        ("(func return_call 0)", 6),
        ("(func try_table end)", 6),
        ("(func atomic.fence)", 6),
        ("(func i8x16.relaxed_swizzle)", 6),
        ("(table 1 funcref (ref.null func))", 17),
        ("(component)", 1),
        ("(module binary \"\\00asm\\01\\00\\00\\00\")", 8),
        ("(func (type 1))", 12),
        ("(func local.get +1)", 16),
        ("(func i32.const +4294967295)", 16),
        ("(memory 4294967296)", 8),
        ("(func i32.load offset=4294967296)", 15),
        ("(func end)", 6),
        ("(func block)", 11),
        ("(func (i32.eqz i32.const 0) drop)", 15),
        ("(memory 1) (data 0 (i32.const 0) \"\")", 17),
        ("(table 1 funcref) (elem 0 (i32.const 0) 0) (func)", 24),
        ("(data \"\\u{0__41}\")", 12),
    ];
    for (text, offset) in rows {
        assert_eq!(
            parse_str(text).unwrap_err().span().offset(),
            offset,
            "{text}"
        );
    }
}

/// Compiles a text of each kind that `wat` rejects or gives other bytes, by the README's list of differences.
#[test]
fn texts_with_other_bytes_than_by_wat() {
    let segment: &[u8] = b"\x01\x04\x01\x60\0\0\x03\x02\x01\0\x04\x04\x01\x70\0\x01\x09\x07\x01\0\x41\0\x0b\x01\0\x0a\x04\x01\x02\0\x0b";
    let zero: &[u8] = b"\x01\x04\x01\x60\0\0\x03\x02\x01\0\x0a\x0a\x01\x08\0\x43\0\0\0\0\x1a\x0b";
    let rows: [(&str, &[u8]); 11] = [
        ("", b""),
        ("(;\u{202e};)", b""),
        ("(data \"\u{202e}\")", b"\x0b\x06\x01\x01\x03\xe2\x80\xae"),
        ("(module (@producers 5))", b""),
        (
            "(module (@custom \"a\" (before datacount) \"b\"))",
            b"\0\x03\x01ab",
        ),
        ("(module (@producers (language \"x\" \"1\")))", b""),
        (
            "(type (func (param i32))) (func (type 0) (param) (result))",
            b"\x01\x05\x01\x60\x01\x7f\0\x03\x02\x01\0\x0a\x04\x01\x02\0\x0b",
        ),
        ("(func f32.const 0x1p-99999999999999999999 drop)", zero),
        (
            "(func i32.load offset=1_0)",
            b"\x01\x04\x01\x60\0\0\x03\x02\x01\0\x0a\x07\x01\x05\0\x28\x02\x0a\x0b",
        ),
        (
            "(table 1 funcref) (elem (i32.const 0) funcref (ref.func 0)) (func)",
            segment,
        ),
        (
            "(table 1 funcref) (elem (table 0) (i32.const 0) func 0) (func)",
            segment,
        ),
    ];
    for (text, sections) in rows {
        assert_eq!(
            parse_str(text).unwrap(),
            [EMPTY, sections].concat(),
            "{text}"
        );
    }
}
