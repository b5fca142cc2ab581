//! The lexemes of `tests/numbers.txt`, numbers and near misses, each with its kind and parts.

// Parts are optional.
#![allow(clippy::ref_option)]

use wat_lex::proved::lexer::{Float, Lexer, Token, TokenKind};
use wat_lex::shim::alloc::Global;
use wat_lex::shim::borrow::CowStr;

const WORDS: &str = include_str!("../../../tests/numbers.txt");

/// Texts that may follow a lexeme: none, one that ends a block of 16 bytes after it, and one that extends past the block.
const FOLLOWING: [&str; 3] = ["", " ", ")5.5e5 and some bytes more"];

fn part<'a>(digits: &'a Option<CowStr<'_>>) -> &'a str {
    digits.as_ref().map_or("_", |digits| digits.as_str())
}

fn shown_float(float: Float<'_>) -> String {
    let sign = |negative| if negative { "-" } else { "" };
    match float {
        Float::Inf { negative } => sign(negative).to_string() + "inf",
        Float::Nan { val, negative } => match val {
            Some(payload) => format!("{}nan {payload}", sign(negative)),
            None => sign(negative).to_string() + "nan",
        },
        Float::Val {
            hex,
            integral,
            fractional,
            exponent,
        } => {
            let base = if hex { 16 } else { 10 };
            let (fractional, exponent) = (part(&fractional), part(&exponent));
            format!("float {base} {integral} {fractional} {exponent}")
        }
    }
}

/// Describes a token as the table does: base and digits of an integer; base, digits before and after the dot and exponent of a float, with `_` for a
/// missing part; payload of a `nan`.
fn shown(token: Token, text: &str) -> String {
    match token.kind {
        TokenKind::Integer(kind) => {
            let integer = token.integer(Global, text, kind).unwrap();
            let (digits, base) = integer.val();
            format!("integer {base} {digits}")
        }
        TokenKind::Float(kind) => shown_float(token.float(Global, text, kind).unwrap()),
        TokenKind::Keyword => "keyword".to_string(),
        TokenKind::Reserved => "reserved".to_string(),
        kind => format!("{kind:?}"),
    }
}

#[test]
fn numbers_at_the_ends_of_blocks() {
    let count = WORDS.lines().count();
    assert!(count >= 97, "the table has {count} words");
    for row in WORDS.lines() {
        let (word, wanted) = row.split_once(' ').expect("a word and what it is");
        for following in FOLLOWING {
            let text = format!("{word}{following}");
            let lexer = Lexer::new(&text);
            let token = lexer.scan(0).unwrap().expect("a token");
            assert_eq!(shown(token, &text), wanted, "{text}");
            assert_eq!(token.len as usize, word.len(), "{text}");
            assert_eq!(lexer.scan_by_byte(0), Ok(Some(token)), "{text}");
        }
    }
}

#[test]
fn an_integer_that_is_read_twice_is_the_same() {
    let text = "-0xa_b";
    let token = Lexer::new(text).scan(0).unwrap().unwrap();
    let TokenKind::Integer(kind) = token.kind else {
        panic!("{:?}", token.kind)
    };
    let read = || token.integer(Global, text, kind).unwrap();
    assert_eq!(read(), read());
}
