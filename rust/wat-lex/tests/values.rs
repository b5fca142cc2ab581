//! Values of tokens, and methods of errors and spans, compared with expected results.

use std::borrow::Cow;
use std::ffi::OsStr;
use std::os::unix::ffi::OsStrExt;
use std::panic::{AssertUnwindSafe, catch_unwind};
use std::path::Path;
use wat_lex::{Error, Float, FloatKind, LexError, Lexer, SignToken, Span, Token, TokenKind};

fn first(text: &str) -> Token {
    Lexer::new(text).parse(&mut 0).unwrap().unwrap()
}

fn fault(text: &str) -> Error {
    Lexer::new(text).iter(0).find_map(Result::err).unwrap()
}

#[test]
fn strings() {
    let read = |text| first(text).string(text);
    assert!(matches!(read("\"\""), Cow::Borrowed(b"")));
    assert!(matches!(read("\"ab\""), Cow::Borrowed(b"ab")));
    assert!(matches!(read("\"\u{e9}\""), Cow::Borrowed(b"\xc3\xa9")));
    assert_eq!(
        &*read("\"a\\n\\62\\u{1_0ffff}\""),
        &b"a\nb\xf4\x8f\xbf\xbf"[..]
    );
    assert!(matches!(read("\"\\ff\""), Cow::Owned(bytes) if bytes == [0xff]));
}

#[test]
fn names() {
    assert!(matches!(first("$x").id("$x"), Ok(Cow::Borrowed("x"))));
    assert!(matches!(
        first("$\"a b\"").id("$\"a b\""),
        Ok(Cow::Borrowed("a b"))
    ));
    assert!(
        matches!(first("@\"\\61\"").annotation("@\"\\61\""), Ok(Cow::Owned(name)) if name == "a")
    );

    for (text, error) in [
        (" $", LexError::EmptyId),
        (" $\"\"", LexError::EmptyId),
        (" $\"\\ff\"", LexError::InvalidUtf8Id),
    ] {
        let token = Lexer::new(text).parse(&mut 1).unwrap().unwrap();
        let wrong = token.id(text).unwrap_err();
        assert_eq!(
            (wrong.lex_error(), wrong.span()),
            (Some(&error), Span::from_offset(1))
        );
        assert!(
            wrong.to_string().contains("\n     --> <anon>:1:2\n"),
            "{wrong}"
        );
    }
    let empty = first("@").annotation("@").unwrap_err();
    assert_eq!(
        empty.to_string(),
        "empty annotation id\n     --> <anon>:1:1\n      |\n    1 | @\n      | ^"
    );
}

#[test]
fn integers() {
    for (text, digits, base, sign) in [
        ("0", "0", 10, None),
        ("+1", "1", 10, Some(SignToken::Plus)),
        ("-1_0", "-10", 10, Some(SignToken::Minus)),
        ("-0x1_F", "-1F", 16, Some(SignToken::Minus)),
    ] {
        let TokenKind::Integer(kind) = first(text).kind else {
            panic!("{text}")
        };
        let integer = first(text).integer(text, kind);
        assert_eq!((integer.val(), integer.sign()), ((digits, base), sign));
        assert_eq!(
            (kind.hex(), kind.has_underscores(), kind.sign()),
            (base == 16, text.contains('_'), sign)
        );
    }
}

#[test]
fn floats() {
    let read = |text| match first(text).kind {
        TokenKind::Float(kind) => first(text).float(text, kind),
        kind => panic!("{kind:?}"),
    };
    let value = |hex,
                 integral: &'static str,
                 fractional: Option<&'static str>,
                 exponent: Option<&'static str>| Float::Val {
        hex,
        integral: integral.into(),
        fractional: fractional.map(Cow::from),
        exponent: exponent.map(Cow::from),
    };
    assert_eq!(read("-1_0.5e+7"), value(false, "-10", Some("5"), Some("7")));
    assert_eq!(read("0x1.P-1_0"), value(true, "1", None, Some("-10")));
    assert_eq!(read("1e5"), value(false, "1", None, Some("5")));
    assert_eq!(read("-inf"), Float::Inf { negative: true });
    assert_eq!(
        read("nan"),
        Float::Nan {
            val: None,
            negative: false
        }
    );
    assert_eq!(
        read("-nan:0x7_f"),
        Float::Nan {
            val: Some("7f".into()),
            negative: true
        }
    );
    assert_eq!(
        first("1.5_0").kind,
        TokenKind::Float(FloatKind::Normal {
            has_underscores: true,
            hex: false
        })
    );
}

#[test]
fn faults() {
    for (text, error, offset, message) in [
        (
            "(;",
            LexError::DanglingBlockComment,
            0,
            "unterminated block comment",
        ),
        (
            "a\u{80}",
            LexError::Unexpected('\u{80}'),
            1,
            "unexpected character '\\u{80}'",
        ),
        (
            "\"\t\"",
            LexError::InvalidStringElement('\t'),
            1,
            "invalid character in string '\\t'",
        ),
        (
            "\"\\z\"",
            LexError::InvalidStringEscape('z'),
            2,
            "invalid string escape 'z'",
        ),
        (
            "\"\\0g\"",
            LexError::InvalidHexDigit('g'),
            3,
            "invalid hex digit 'g'",
        ),
        (
            "\"\\u(\"",
            LexError::Expected {
                wanted: '{',
                found: '(',
            },
            3,
            "expected '{' but found '('",
        ),
        ("\"", LexError::UnexpectedEof, 1, "unexpected end-of-file"),
        (
            "\"\\u{fffffffff}\"",
            LexError::NumberTooBig,
            12,
            "number is too big to parse",
        ),
        (
            "\"\\u{d800}\"",
            LexError::InvalidUnicodeValue(0xd800),
            7,
            "invalid unicode scalar value 0xd800",
        ),
        (
            "\"\\u{1_}\"",
            LexError::LoneUnderscore,
            5,
            "bare underscore in numeric literal",
        ),
        (
            ";;\u{202e}",
            LexError::ConfusingUnicode('\u{202e}'),
            2,
            "likely-confusing unicode character found '\\u{202e}'",
        ),
    ] {
        let found = fault(text);
        assert_eq!(
            (found.lex_error(), found.message()),
            (Some(&error), message.to_string()),
            "{text}"
        );
        assert_eq!(error.to_string(), message);
        assert!(found.to_string().starts_with(message));
        assert_eq!(found.span().offset(), offset, "{text}");
    }
    let long = "a".repeat(600) + "\u{80}";
    assert_eq!(
        fault(&long).to_string(),
        "unexpected character '\\u{80}' at <anon>:1:601"
    );
    assert_eq!(fault(&long).message(), "unexpected character '\\u{80}'");
    let error: Box<dyn std::error::Error> = fault(" \n  \"").into();
    assert_eq!(
        error.to_string(),
        "unexpected end-of-file\n     --> <anon>:2:4\n      |\n    2 |   \"\n      |    ^"
    );
}

#[test]
fn files() {
    let named = |path: &[u8], text: Option<&str>| {
        let mut error = Error::new(Span::from_offset(3), "an <anon> at <anon>:1".to_string());
        error.set_path(Path::new(OsStr::from_bytes(path)));
        if let Some(text) = text {
            error.set_text(text);
            error.set_text("later");
        }
        error.set_path(Path::new("later"));
        error.to_string()
    };
    let message = "an <anon> at <anon>:1";
    assert_eq!(named(b"f", None), format!("{message} at byte offset 3"));
    assert_eq!(
        named(b"a/\xc3\xa9.wat", Some("a\nbc")),
        format!("{message}\n     --> a/\u{e9}.wat:2:2\n      |\n    2 | bc\n      |  ^")
    );
    assert_eq!(
        named(b"\xff", Some("a\nbc")),
        format!("{message}\n     --> <anon>:2:2\n      |\n    2 | bc\n      |  ^")
    );
    let mut long = Error::new(Span::from_offset(600), message.to_string());
    long.set_text(&"a".repeat(700));
    long.set_path(Path::new("f"));
    assert_eq!(long.to_string(), format!("{message} at f:1:601"));
    assert_eq!(
        (long.message(), long.lex_error()),
        (message.to_string(), None)
    );
}

#[test]
fn settings() {
    let confusing = ";;\u{202e}";
    assert!(
        Lexer::new(confusing)
            .allow_confusing_unicode(true)
            .parse(&mut 0)
            .is_ok()
    );
    let doubled = "\"\\u{1__0}\"";
    assert!(Lexer::new(doubled).parse(&mut 0).is_ok());
    let mut lexer = Lexer::new(doubled);
    let error = lexer.strict_underscores(true).parse(&mut 0).unwrap_err();
    assert_eq!(
        (error.lex_error(), error.span().linecol_in(doubled)),
        (Some(&LexError::LoneUnderscore), (0, 6))
    );
    let token = Lexer::new(doubled).parse(&mut 0).unwrap().unwrap();
    assert_eq!(*token.string(doubled), [0x10]);
}

#[test]
fn places_are_those_of_str() {
    for text in [
        "",
        "a",
        "\u{80}",
        "(\u{7ff}\u{800})",
        "\u{ffff}a\u{10000}",
        "\u{10ffff}",
    ] {
        for pos in (0..text.len() + 3).chain([usize::MAX]) {
            let parse = || Lexer::new(text).parse(&mut { pos }).is_ok();
            let passes = std::panic::catch_unwind(parse).is_ok();
            assert_eq!(passes, text.is_char_boundary(pos), "{text:?} at {pos}");
        }
    }
}

#[test]
fn places() {
    assert_eq!(Lexer::new("").parse(&mut 0), Ok(None));
    assert_eq!(Lexer::new("a").parse(&mut 1), Ok(None));
    assert!(std::panic::catch_unwind(|| Lexer::new("\u{80}").parse(&mut 1)).is_err());
    assert!(std::panic::catch_unwind(|| Lexer::new("a").iter(2).count()).is_err());
    assert!(std::panic::catch_unwind(|| first("(").string("(")).is_err());
    assert_eq!(Span::from_offset(9).linecol_in("a\nb"), (2, 0));
}

/// Checks that accessors panic for a token of another kind, and for one that is not inside the text.
#[test]
fn a_token_of_another_kind_is_not_read() {
    let panics = |read: &dyn Fn()| catch_unwind(AssertUnwindSafe(read)).is_err();
    let string = first("\"ab\"");
    for (offset, len) in [(0, 5), (5, 0), (0, u32::MAX), (usize::MAX, 1)] {
        let other = Token {
            offset,
            len,
            ..string
        };
        assert!(panics(&|| drop(other.string("\"ab\""))), "{offset} {len}");
    }
    for text in ["", "\"a", "\"\u{e9}"] {
        assert!(panics(&|| drop(string.string(text))), "{text}");
    }
    let kinds = ["\"a\"", "$a", "@a", "a", "(", ",", "1", "1.5"].map(|text| (first(text), text));
    for (token, text) in kinds {
        let is = |kind: TokenKind| token.kind == kind;
        assert_eq!(
            panics(&|| drop(token.string(text))),
            !is(TokenKind::String),
            "{text}"
        );
        assert_eq!(
            panics(&|| drop(token.id(text))),
            !is(TokenKind::Id),
            "{text}"
        );
        assert_eq!(
            panics(&|| drop(token.annotation(text))),
            !is(TokenKind::Annotation),
            "{text}"
        );
    }
}

/// Checks that accessors of numbers panic for a number of another kind.
#[test]
fn a_number_of_another_kind_is_not_read() {
    let panics = |read: &dyn Fn()| catch_unwind(AssertUnwindSafe(read)).is_err();
    let (TokenKind::Integer(kind), TokenKind::Integer(signed)) =
        (first("1").kind, first("+1").kind)
    else {
        panic!("integers")
    };
    assert!(panics(&|| drop(first("1").integer("1", signed))));
    assert!(panics(&|| drop(first("+1").integer("+1", kind))));
    let word = Token {
        kind: TokenKind::Keyword,
        ..first("1")
    };
    assert!(panics(&|| drop(word.integer("1", kind))));
    let kind = FloatKind::Inf { negative: true };
    assert!(panics(&|| drop(first("inf").float("inf", kind))));
}

/// Checks that accessors accept a token that the lexer finds only with other settings.
#[test]
fn a_token_of_any_settings_is_read() {
    let text = "\"\u{202e}\"";
    let token = Lexer::new(text)
        .allow_confusing_unicode(true)
        .parse(&mut 0)
        .unwrap()
        .unwrap();
    assert_eq!(*token.string(text), *"\u{202e}".as_bytes());
}

#[test]
fn errors_are_equal_where_they_print_the_same() {
    let new = |offset, message: &str| Error::new(Span::from_offset(offset), message.to_string());
    assert_eq!(new(1, "a"), new(1, "a"));
    assert_ne!(new(1, "a"), new(2, "a"));
    assert_ne!(new(1, "a"), new(1, "b"));
    assert_eq!(fault("\""), fault("\""));
    assert_ne!(fault("\""), new(1, "unexpected end-of-file"));
    let (mut named, mut unnamed) = (new(1, "a"), new(1, "a"));
    unnamed.set_text("b");
    assert_ne!(unnamed, new(1, "a"));
    named.set_text("b");
    named.set_path(Path::new("f"));
    assert_ne!(named, unnamed);
    let in_text = |offset, message, text| {
        let mut error = new(offset, message);
        error.set_text(text);
        error
    };
    let (past, further) = (in_text(5, "a", "b"), in_text(6, "a", "b"));
    assert_eq!(past.to_string(), further.to_string());
    assert_ne!(past, further);
    let custom = in_text(1, "unexpected end-of-file", "\"");
    assert_eq!(fault("\"").to_string(), custom.to_string());
    assert_ne!(fault("\""), custom);
}

/// Checks the errors for a text of more than `u32::MAX` bytes, most of which are never written.
#[cfg(target_pointer_width = "64")]
#[test]
fn a_text_that_is_too_long_is_refused() {
    let mut bytes = vec![0; 1 << 32];
    (bytes[0], bytes[1]) = (b'@', b'@');
    let text = String::from_utf8(bytes).unwrap();
    let lexer = Lexer::new(&text);
    let message = "the text has more than 4294967295 bytes";
    for pos in [0, 1, 2, text.len(), usize::MAX] {
        let error = lexer.parse(&mut { pos }).unwrap_err();
        assert_eq!(
            (error.message().as_str(), error.span().offset()),
            (message, 0)
        );
        let mut tokens = lexer.iter(pos);
        assert_eq!(tokens.next(), Some(Err(error)));
        assert_eq!(tokens.next(), None);
        let annotation = lexer.annotation(pos).map_err(|error| error.message());
        assert_eq!(
            annotation,
            if pos < 2 {
                Err(message.to_string())
            } else {
                Ok(None)
            }
        );
    }
    assert_eq!(lexer.proved().err().unwrap().message(), message);
    assert_eq!(lexer.input().len(), text.len());
    assert!(Lexer::new(&text[1..]).proved().is_ok());
}
