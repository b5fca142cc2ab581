//! Settings that are reset, errors whose text looks like a file name, debug texts, and values larger than those of other tests.

use std::collections::HashSet;
use std::hash::{DefaultHasher, Hash, Hasher};
use std::path::Path;
use wat_lex::shim::alloc::{AllocError, Global};
use wat_lex::shim::borrow::CowStr;
use wat_lex::shim::collections::BTreeMap;
use wat_lex::shim::fast_float::Numeral;
use wat_lex::shim::string::String as ShimString;
use wat_lex::shim::vec::Vec as ShimVec;
use wat_lex::{Document, Error, Float, LexError, Lexer, LineIndex, Span, TokenKind};

/// A setting of a lexer, and a text with an error if the setting has the value.
type Setting = (fn(&mut Lexer<'static>, bool), &'static str, bool);

const SETTINGS: [Setting; 2] = [
    (
        |lexer, allow| {
            lexer.allow_confusing_unicode(allow);
        },
        ";;\u{202e}",
        false,
    ),
    (
        |lexer, strict| {
            lexer.strict_underscores(strict);
        },
        "\"\\u{6__1}\"",
        true,
    ),
];

/// Returns `true` if lexing the text fails, which the lexer and a document must agree on.
fn fails(lexer: &Lexer<'_>) -> bool {
    let document = Document::with_lexer(lexer).unwrap();
    let fails = lexer.iter(0).any(|token| token.is_err());
    assert_eq!(document.faults().count() > 0, fails);
    assert_eq!(document.lexer().iter(0).any(|token| token.is_err()), fails);
    fails
}

#[test]
fn settings_are_reset() {
    for (set, text, failing) in SETTINGS {
        assert_eq!(Document::new(text).unwrap().faults().count() > 0, !failing);
        let mut lexer = Lexer::new(text);
        assert_eq!(fails(&lexer), !failing, "both are off at first");
        for value in [true, false, true, true, false, false] {
            set(&mut lexer, value);
            assert_eq!(fails(&lexer), value == failing, "{text}");
        }
    }
}

#[test]
fn errors_of_any_length_are_printed_whole() {
    for (message, line) in (0..300).flat_map(|len| [(len, 1), (1, len), (len, 128), (len, 129)]) {
        let (message, line) = ("é".repeat(message), "x".repeat(line));
        let mut error = Error::new(Span::from_offset(0), message.clone());
        error.set_text(&line);
        let wanted = format!("{message}\n     --> <anon>:1:1\n      |\n    1 | {line}\n      | ^");
        assert_eq!(error.to_string(), wanted);
    }
}

#[test]
fn an_error_with_a_static_message_is_another_error() {
    let few = (1..=11).flat_map(|line| [(line, 1), (line, 9), (line, 10), (line, 400)]);
    for (line, column) in few.chain((1..=130).map(|column| (1, column))) {
        let text = "\n".repeat(line - 1) + &"x".repeat(column);
        let span = Span::from_offset(text.len() - 1);
        let mut error = Error::in_text(span, &text, "no");
        let mut same = Error::new(span, "no".to_owned());
        same.set_text(&text);
        let (shown, marker) = ("x".repeat(column), "^");
        let excerpt = format!("      |\n {line:4} | {shown}\n      | {marker:>column$}");
        let wanted = format!("no\n     --> <anon>:{line}:{column}\n{excerpt}");
        assert_eq!(
            (error.to_string(), error.message()),
            (wanted, "no".to_owned())
        );
        assert_eq!(error, same);
        error.set_text("other");
        error.set_path(Path::new("a.wat"));
        let wanted = format!("no\n     --> a.wat:{line}:{column}\n{excerpt}");
        assert_eq!((error.to_string(), error.span()), (wanted, span));
        assert_eq!(error.lex_error(), None);
    }
}

#[test]
fn long_lines_are_printed_as_displayed() {
    for (own, shown) in [("\t", "    "), ("’", "’"), ("\u{202e}", ""), ("é", "é")] {
        for (before, after) in (0..300).flat_map(|len| [(len, 0), (1, len), (len, len)]) {
            let line = |own: &str| "x".repeat(before) + own + &"x".repeat(after);
            let error = Error::in_text(Span::from_offset(0), &line(own), "no");
            let shown = line(shown);
            let wanted = format!("no\n     --> <anon>:1:1\n      |\n    1 | {shown}\n      | ^");
            assert_eq!(error.to_string(), wanted);
        }
    }
}

#[test]
fn only_the_name_of_the_file_is_replaced() {
    let mut error = Error::new(Span::from_offset(7), "no <anon>".to_owned());
    error.set_text("<anon> <anon>");
    error.set_path(Path::new("a.wat"));
    let wanted = "no <anon>\n     --> a.wat:1:8\n      |\n    1 | <anon> <anon>\n      |        ^";
    assert_eq!(error.to_string(), wanted);
}

#[test]
fn debug_texts_have_the_fields() {
    let mut lexer = Lexer::new("a");
    lexer.allow_confusing_unicode(true);
    let settings = "Settings { allow: true, strict: false }";
    let document = Document::with_lexer(&lexer).unwrap();
    let mut pieces = lexer.pieces(0).unwrap();
    pieces.next();
    for (printed, wanted) in [
        (
            format!("{lexer:?}"),
            format!("Lexer {{ input: \"a\", settings: {settings} }}"),
        ),
        (
            format!("{document:?}"),
            format!("Document {{ text: \"a\", settings: {settings}, .. }}"),
        ),
        (
            format!("{:?}", LineIndex::new("a")),
            "LineIndex { text: \"a\", .. }".to_owned(),
        ),
        (format!("{pieces:?}"), "Pieces { offset: 1, .. }".to_owned()),
    ] {
        assert_eq!(printed, wanted);
    }
}

#[test]
fn errors_of_each_kind_are_different_keys() {
    let expected = |wanted, found| LexError::Expected { wanted, found };
    let errors = [
        expected('a', 'b'),
        expected('a', 'c'),
        expected('c', 'b'),
        LexError::DanglingBlockComment,
        LexError::Unexpected('a'),
        LexError::InvalidStringElement('a'),
        LexError::InvalidStringEscape('a'),
        LexError::InvalidHexDigit('a'),
        LexError::InvalidDigit('a'),
        LexError::ConfusingUnicode('a'),
        LexError::ConfusingUnicode('b'),
        LexError::InvalidUnicodeValue(97),
        LexError::InvalidUnicodeValue(98),
        LexError::UnexpectedEof,
        LexError::NumberTooBig,
        LexError::LoneUnderscore,
        LexError::InvalidUtf8Id,
        LexError::EmptyId,
        LexError::EmptyAnnotation,
    ];
    let hash = |error: &LexError| {
        let mut hasher = DefaultHasher::new();
        error.hash(&mut hasher);
        hasher.finish()
    };
    let hashes: HashSet<u64> = errors.iter().map(hash).collect();
    assert_eq!(hashes.len(), errors.len());
    assert_eq!(
        errors.map(|error| hash(&error)),
        errors.map(|error| hash(&error))
    );
}

/// Checks columns in a long line that is not the first.
#[test]
fn columns_begin_at_the_start_of_their_line() {
    let text = "a\u{e9}\n".to_owned() + &"\u{1f600}".repeat(1_000);
    let document = Document::new(&text).unwrap();
    for count in [0, 1, 255, 256, 257, 600, 1_000] {
        let span = Span::from_offset(4 + 4 * count);
        assert_eq!(document.linecol(span), (1, 4 * count));
        assert_eq!(document.char_linecol(span), (1, count));
        assert_eq!(document.utf16_linecol(span), (1, 2 * count));
        assert_eq!(document.utf16_place(1, 2 * count), span);
    }
    // A column after the end of a line is its end.
    for (line, end) in [(0, 3), (1, text.len()), (2, text.len())] {
        assert_eq!(document.place(line, usize::MAX).offset(), end);
        assert_eq!(document.utf16_place(line, usize::MAX).offset(), end);
    }
}

#[test]
fn exponents_keep_their_digits() {
    for digits in ["1", "123456", "1234567", "+12345678901234567890"] {
        let text = format!("1e{digits}");
        let token = Lexer::new(&text).parse(&mut 0).unwrap().unwrap();
        let TokenKind::Float(kind) = token.kind else {
            panic!("{text} is a float");
        };
        let Float::Val { exponent, .. } = token.float(&text, kind) else {
            panic!("{text} has a value");
        };
        assert_eq!(exponent.unwrap(), digits.trim_start_matches('+'));
    }
}

/// Checks exponents that exceed every integer type.
#[test]
fn exponents_of_any_size_are_rounded() {
    let (nines, zeros) = ("9".repeat(40), "0".repeat(40));
    for (text, wanted) in [
        (format!("1e{nines}"), f64::INFINITY),
        (format!("1e-{nines}"), 0.0),
        (format!("1e+{zeros}2"), 100.0),
        (format!("0.{zeros}1e41"), 1.0),
        (format!("1{zeros}e-00040"), 1.0),
        ("25e-00001".to_owned(), 2.5),
        ("1e-00300".to_owned(), 1e-300),
        ("1e-00301".to_owned(), 1e-301),
        (format!("0.{}1e00901", "0".repeat(900)), 1.0),
        (format!("{}1e-00002", "0".repeat(900)), 0.01),
        (format!("0.{}1e1000001", "0".repeat(1_000_000)), 1.0),
        ("0e-99999".to_owned(), 0.0),
    ] {
        let number: f64 = Numeral::scan(text.as_bytes()).to_float(false);
        assert_eq!(number.to_bits(), wanted.to_bits(), "{text}");
    }
    for count in 5..40 {
        let text = format!("1e{}", "9".repeat(count));
        let number: f64 = Numeral::scan(text.as_bytes()).to_float(false);
        assert!(number.is_infinite(), "{text}");
    }
}

/// Checks numerals of more digits than are kept: the midpoint of 1 and the next float, 900 zeros and further digits.
#[test]
fn digits_after_a_midpoint_decide_the_rounding() {
    let midpoint = "1.00000000000000011102230246251565404236316680908203125";
    let zeros = "0".repeat(900);
    let next = 1.0 + f64::EPSILON;
    for (digits, wanted) in [("", 1.0), ("0", 1.0), ("1", next), ("10", next)] {
        let text = format!("{midpoint}{zeros}{digits}e00000");
        let number: f64 = Numeral::scan(text.as_bytes()).to_float(false);
        assert_eq!(number.to_bits(), f64::to_bits(wanted), "{digits}");
    }
}

#[test]
fn long_values_of_the_shim_are_whole() {
    let mut text = ShimString::new(Global);
    for c in ['a', 'é', '漢', '\u{ffff}', '\u{10000}', '\u{10ffff}'] {
        text.push(c).unwrap();
    }
    assert_eq!(text.as_str(), "aé漢\u{ffff}\u{10000}\u{10ffff}");
    for (first, second) in [
        ("123456789", "123456780"),
        ("12345678", "12345678a"),
        ("", "a"),
    ] {
        assert!(CowStr::Borrowed(first) != CowStr::Borrowed(second));
        assert!(
            CowStr::Borrowed(first) == CowStr::Owned(ShimString::from_str(Global, first).unwrap())
        );
    }
    assert_eq!(CowStr::Borrowed("ab").len(), 2);
    let mut items = ShimVec::from_elem(Global, 7_u8, 1_100_000).unwrap();
    items.truncate(3);
    assert_eq!(items.as_slice(), [7, 7, 7]);
    assert_eq!(format!("{items:?}"), "[7, 7, 7]");
    assert_eq!(AllocError.to_string(), "memory allocation failed");
}

/// Checks a map of several parts whose first part becomes empty.
#[test]
fn a_map_without_its_first_keys_is_not_empty() {
    let mut map = BTreeMap::new(Global);
    for key in 0..2_000_u64 {
        map.insert(key, key).unwrap();
    }
    for key in 0..2_000 {
        assert!(!map.is_empty(), "{key}");
        assert_eq!(
            (map.len(), map.remove(&key)),
            (2_000 - usize::try_from(key).unwrap(), Some(key))
        );
    }
    assert!(map.is_empty());
}
