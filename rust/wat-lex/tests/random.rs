//! Differential fuzzing of the layer against the verified lexer and its accessors, on random texts.

// Compared values are passed by value.
#![allow(clippy::needless_pass_by_value)]

use std::borrow::Cow;
use wat_lex::proved::error::Error as ProvedError;
use wat_lex::proved::lexer as proved;
use wat_lex::shim::alloc::Global;
use wat_lex::shim::borrow::CowStr;
use wat_lex::{Error, Float, Lexer, Token, TokenKind};

const PIECES: [&str; 40] = [
    "(", ")", ";", ";;", "(;", ";)", "\"", "\\", "a", "$", "@", "1", "_", "\n", " ", "\t", "}",
    "\\u{", "\u{202e}", "é", "漢", "0x", "1.5", "e+", "p-3", "nan:0x", "inf", "-", "+", "f",
    "module", "$x", "@name", "\"ab\"", "$\"", "@\"", "\\ff", "\\61", ",", "\u{0}",
];

/// Elements of a name. Most are single bytes of multi-byte characters.
const ELEMENTS: [&str; 16] = [
    "a", "é", "\\t", "\\u{e9}", "\\61", "\\80", "\\90", "\\98", "\\9f", "\\a0", "\\a9", "\\c3",
    "\\e2", "\\ed", "\\f0", "\\f4",
];

/// A pseudorandom number generator with a fixed seed.
struct Random(u64);

impl Random {
    fn below(&mut self, count: usize) -> usize {
        self.0 = self
            .0
            .wrapping_mul(6_364_136_223_846_793_005)
            .wrapping_add(1);
        (self.0 >> 33) as usize % count
    }

    fn text(&mut self) -> String {
        let pieces = 1 + self.below(12);
        (0..pieces)
            .map(|_| PIECES[self.below(PIECES.len())])
            .collect()
    }

    fn identifier(&mut self) -> String {
        let count = self.below(7);
        let elements = (0..count).map(|_| ELEMENTS[self.below(ELEMENTS.len())]);
        format!("$\"{}\"", elements.collect::<String>())
    }
}

/// Returns a string, and `true` if it is borrowed.
fn shown(text: Cow<'_, str>) -> (bool, String) {
    (matches!(text, Cow::Borrowed(_)), text.into_owned())
}

fn proved_shown(text: CowStr<'_>) -> (bool, String) {
    (matches!(text, CowStr::Borrowed(_)), text.to_string())
}

fn compare_names(ours: Result<Cow<'_, str>, Error>, theirs: Result<CowStr<'_>, ProvedError>) {
    assert_eq!(
        ours.map(shown).map_err(|error| error.to_string()),
        theirs.map(proved_shown).map_err(|error| error.to_string())
    );
}

/// Checks that the functions that test a name without allocating return the same as the one that decodes it. Returns `true` if the name is valid.
fn compare_name(token: proved::Token, text: &str) -> bool {
    let name = token.name(Global, text).unwrap();
    assert_eq!(
        token.name_fault(text),
        name.as_ref().err().copied(),
        "{text}"
    );
    let name = name.map_or(String::new(), |name| name.to_string());
    let is_name = !name.is_empty();
    let (longer, shorter) = (name.clone() + "x", name.chars().skip(1).collect::<String>());
    assert_eq!(token.has_name(text, &name), is_name, "{text}");
    assert!(!token.has_name(text, &longer) && !token.has_name(text, &shorter));
    is_name
}

fn compare_floats(ours: Float<'_>, theirs: proved::Float<'_>) {
    assert_eq!(format!("{ours:?}"), format!("{theirs:?}"));
    if let (
        Float::Val {
            integral,
            fractional,
            exponent,
            ..
        },
        proved::Float::Val {
            integral: i,
            fractional: f,
            exponent: e,
            ..
        },
    ) = (ours, theirs)
    {
        assert_eq!(shown(integral), proved_shown(i));
        assert_eq!(fractional.map(shown), f.map(proved_shown));
        assert_eq!(exponent.map(shown), e.map(proved_shown));
    }
}

fn compare_values(token: Token, found: proved::Token, text: &str) {
    assert_eq!(token, Token::from(found));
    match token.kind {
        TokenKind::String => {
            let value = token.string(text);
            let is_borrowed = matches!(value, Cow::Borrowed(_));
            assert_eq!(*value, **found.string(Global, text).as_ref().unwrap());
            assert_eq!(is_borrowed, !token.src(text).contains('\\'));
        }
        TokenKind::Id => {
            compare_names(token.id(text), found.id(Global, text));
            compare_name(found, text);
        }
        TokenKind::Annotation => {
            compare_names(token.annotation(text), found.annotation(Global, text));
            compare_name(found, text);
        }
        TokenKind::Integer(kind) => {
            assert_eq!(
                token.integer(text, kind),
                found.integer(Global, text, kind).unwrap()
            );
        }
        TokenKind::Float(kind) => compare_floats(
            token.float(text, kind),
            found.float(Global, text, kind).unwrap(),
        ),
        _ => assert_eq!(token.keyword(text), found.src(text)),
    }
}

/// Compares both lexers on a text. Returns the number of tokens, and `true` if the text has a lexical error.
fn compare(lexer: &Lexer<'_>) -> (usize, bool) {
    let (text, proved) = (lexer.input(), lexer.proved().unwrap());
    let (mut tokens, mut pos, mut count) = (lexer.iter(0), 0, 0);
    for item in proved.iter(Global, 0) {
        let (start, next) = (pos, tokens.next().unwrap());
        assert_eq!(next, lexer.parse(&mut pos).map(Option::unwrap));
        match (next, item) {
            (Ok(token), Ok(found)) => compare_values(token, found, text),
            (Err(error), Err(proved)) => {
                assert_eq!(error, Error::from(proved));
                assert_eq!((pos, tokens.next()), (start, None));
                return (count, true);
            }
            (next, item) => panic!("{next:?} and {item:?} of {text:?}"),
        }
        count += 1;
    }
    assert_eq!((tokens.next(), lexer.parse(&mut pos)), (None, Ok(None)));
    assert_eq!(pos, text.len());
    (count, false)
}

#[test]
fn the_layer_answers_as_what_it_is_over() {
    let (mut random, mut tokens, mut faults) = (Random(11), 0, 0);
    for _ in 0..30_000 {
        let text = random.text();
        let mut lexer = Lexer::new(&text);
        lexer.allow_confusing_unicode(random.below(2) == 0);
        lexer.strict_underscores(random.below(2) == 0);
        let (count, is_fault) = compare(&lexer);
        tokens += count;
        faults += usize::from(is_fault);
    }
    println!("{tokens} tokens, {faults} faults");
    assert!(tokens > 50_000 && faults > 10_000, "{tokens} {faults}");
}

#[test]
fn names_are_tested_as_they_are_read() {
    let (mut random, mut right) = (Random(5), 0);
    for _ in 0..200_000 {
        let text = random.identifier();
        let found = proved::Lexer::new(&text).scan(0).unwrap().unwrap();
        right += usize::from(compare_name(found, &text));
    }
    assert!((10_000..190_000).contains(&right), "{right} names");
}
