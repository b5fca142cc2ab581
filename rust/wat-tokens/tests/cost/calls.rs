//! The calls of the libraries for Rust and C.

use crate::Prepared;
use crate::generated::wat_c::positions::{wat_line_column_by, wat_line_feeds};
use crate::generated::wat_c::recovery::wat_resume;
use crate::rows::counting::{Row, fill_counting};
use crate::rows::fill::fill;
use crate::rows::links::link;
use crate::rows::rows::{Filled, TokenRow, plain};
use std::hint::black_box;
use wat_lex::proved::lexer::Settings;
use wat_lex::{Document, Lexer, LineIndex, Span, Token, TokenKind};
use wat_parser::parser::{self, Cursor, Parse, ParseBuffer, Parser};

/// A function that prepares a call on a text.
type Prepare = for<'a> fn(&'a str) -> Prepared<'a>;

/// The calls by name.
pub const CALLS: [(&str, Prepare); 15] = [
    ("Lexer::iter", |text| {
        repeated(move || tokens(&Lexer::new(text)).count())
    }),
    ("values of tokens", |text| repeated(move || values(text))),
    ("ParseBuffer::new, parse", |text| {
        repeated(move || parsed::<Tokens>(text))
    }),
    ("register_annotation, parse", |text| {
        repeated(move || parsed::<Annotated>(text))
    }),
    ("parse_str", |text| {
        repeated(move || wat_modules::parse_str(text))
    }),
    ("format", |text| repeated(move || wat_format::format(text))),
    ("Document::new", |text| repeated(move || document(text))),
    ("Document::replace", edits),
    ("Document::faults", faults),
    ("Document::utf16_linecol", columns),
    ("LineIndex::linecol", |text| repeated(move || lines(text))),
    ("wat_fill", |text| repeated(move || filled(text))),
    ("wat_fill, wat_resume", |text| {
        repeated(move || resumed(text))
    }),
    ("wat_rows, wat_links", |text| repeated(move || linked(text))),
    ("wat_line_column_by", positions),
];

/// Prepares a call, whose result is dropped.
fn repeated<'a, T>(call: impl Fn() -> T + 'a) -> Prepared<'a> {
    Box::new(move || {
        black_box(call());
    })
}

/// The number of edits and of offsets for calls that read or move a part of the text.
const MANY: usize = 16;

/// Returns the tokens before the end of a lexer's text, or before its first error.
fn tokens(lexer: &Lexer<'_>) -> impl Iterator<Item = Token> {
    lexer.iter(0).map_while(Result::ok)
}

/// Returns the sum of the lengths of the tokens' values.
fn values(text: &str) -> usize {
    let lexer = Lexer::new(text);
    tokens(&lexer).map(|token| value(&token, text)).sum()
}

fn value(token: &Token, text: &str) -> usize {
    match token.kind {
        TokenKind::String => token.string(text).len(),
        TokenKind::Id => token.id(text).map_or(0, |name| name.len()),
        TokenKind::Annotation => token.annotation(text).map_or(0, |name| name.len()),
        TokenKind::Integer(kind) => token.integer(text, kind).val().0.len(),
        TokenKind::Float(kind) => {
            black_box(token.float(text, kind));
            1
        }
        _ => token.src(text).len(),
    }
}

/// Parses a text as `T`, if it is one.
fn parsed<T: for<'a> Parse<'a>>(text: &str) -> Option<T> {
    let buffer = ParseBuffer::new(text).ok()?;
    parser::parse::<T>(&buffer).ok()
}

/// Returns the cursor after the token that comes next, or `None` at the end of the text.
fn past(cursor: Cursor<'_>) -> parser::Result<Option<Cursor<'_>>> {
    if let Some((_, next)) = cursor.keyword()? {
        return Ok(Some(next));
    }
    if let Some(next) = cursor.lparen()? {
        return Ok(Some(next));
    }
    if let Some(next) = cursor.rparen()? {
        return Ok(Some(next));
    }
    if let Some((_, next)) = cursor.integer()? {
        return Ok(Some(next));
    }
    if let Some((_, next)) = cursor.id()? {
        return Ok(Some(next));
    }
    if let Some((_, next)) = cursor.string()? {
        return Ok(Some(next));
    }
    if let Some((_, next)) = cursor.float()? {
        return Ok(Some(next));
    }
    Ok(cursor.reserved()?.map(|(_, next)| next))
}

/// Advances past a token. Returns `false` at the end of the text.
fn step(parser: Parser<'_>) -> parser::Result<bool> {
    parser.step(|cursor| {
        Ok(match past(cursor)? {
            Some(next) => (true, next),
            None => (false, cursor),
        })
    })
}

/// The number of significant tokens, without annotations.
struct Tokens(#[expect(dead_code, reason = "the compiler may not drop the count")] usize);

impl<'a> Parse<'a> for Tokens {
    fn parse(parser: Parser<'a>) -> parser::Result<Self> {
        let mut count = 0;
        while step(parser)? {
            count += 1;
        }
        Ok(Tokens(count))
    }
}

/// The number of significant tokens, with the annotations `(@a ..)`.
struct Annotated(#[expect(dead_code, reason = "the compiler may not drop the count")] usize);

impl<'a> Parse<'a> for Annotated {
    fn parse(parser: Parser<'a>) -> parser::Result<Self> {
        let _registered = parser.register_annotation("a");
        let mut count = 0;
        loop {
            let is_annotation = parser.step(|cursor| {
                Ok(match cursor.annotation()? {
                    Some((_, next)) => (true, next),
                    None => (false, cursor),
                })
            })?;
            if !is_annotation && !step(parser)? {
                return Ok(Annotated(count));
            }
            count += 1;
        }
    }
}

fn document(text: &str) -> Document {
    Document::new(text).expect("the text is not too long")
}

/// Returns offsets of characters of a text, neighbours far apart.
fn offsets(text: &str) -> impl Iterator<Item = usize> {
    (0..MANY).map(move |part| {
        let at = text.len() / MANY * (part * 7 % MANY);
        let boundary = (0..=at).rfind(|at| text.is_char_boundary(*at));
        boundary.unwrap_or(0)
    })
}

/// Prepares edits of a document: at each offset a letter is typed and deleted.
fn edits(text: &str) -> Prepared<'_> {
    let mut document = document(text);
    Box::new(move || {
        for at in offsets(text) {
            let typed = document.replace(at..at, "x");
            let deleted = document.replace(at..at + 1, "");
            black_box((typed.is_ok(), deleted.is_ok()));
        }
    })
}

fn faults(text: &str) -> Prepared<'_> {
    let document = document(text);
    Box::new(move || {
        let covered: usize = document.faults().map(|fault| fault.range().len()).sum();
        black_box(covered);
    })
}

/// Prepares conversions of offsets, each of which may read a whole line.
fn columns(text: &str) -> Prepared<'_> {
    let document = document(text);
    Box::new(move || {
        for at in offsets(text) {
            let (line, column) = document.utf16_linecol(Span::from_offset(at));
            black_box(document.utf16_place(line, column));
        }
    })
}

/// Returns the sum of the lines and columns of all tokens.
fn lines(text: &str) -> usize {
    let index = LineIndex::new(text);
    let lexer = Lexer::new(text);
    let found = tokens(&lexer).map(|token| index.linecol(Span::from_offset(token.offset)));
    found.map(|(line, column)| line + column).sum()
}

const SETTINGS: Settings = Settings {
    allow: false,
    strict: false,
};

/// Fills rows of tokens from an offset on, up to the end or an error, and returns what the last call returned.
fn fill_from(text: &str, from: usize) -> Filled {
    let none = TokenRow {
        offset: 0,
        len: 0,
        kind: plain(0),
    };
    let mut rows = [none; 1024];
    let mut filled = fill(text, from, SETTINGS, &mut rows);
    while filled.why == 1 {
        filled = fill(text, filled.at, SETTINGS, &mut rows);
    }
    filled
}

fn filled(text: &str) -> usize {
    fill_from(text, 0).at
}

/// Returns the number of errors of a text, which are found by resuming after each.
fn resumed(text: &str) -> usize {
    let mut filled = fill_from(text, 0);
    let mut errors = 0;
    while filled.why != 0 {
        errors += 1;
        // SAFETY: the pointer and the length are those of a text, and the offset is a char boundary, as `fill` returns one.
        let next = unsafe { wat_resume(text.as_ptr(), text.len(), filled.at, false, false) };
        filled = fill_from(text, next);
    }
    errors
}

fn linked(text: &str) -> usize {
    let none = Row {
        offset: 0,
        len: 0,
        kind: plain(0),
        link: 0,
    };
    let mut rows = vec![none; text.len() + 1];
    let count = fill_counting(text, 0, SETTINGS, &mut rows).count;
    link(&mut rows[..count]);
    count
}

/// Prepares the conversion of the offset of each token, with the line feeds that the caller keeps.
fn positions(text: &str) -> Prepared<'_> {
    let mut feeds = vec![0; text.len()];
    // SAFETY: the pointers and lengths are those of a text and of a buffer.
    let count =
        unsafe { wat_line_feeds(text.as_ptr(), text.len(), feeds.as_mut_ptr(), feeds.len()) };
    Box::new(move || {
        for token in tokens(&Lexer::new(text)) {
            // SAFETY: the pointers and lengths are those of a text and of the offsets of its line feeds.
            let position = unsafe {
                wat_line_column_by(
                    text.as_ptr(),
                    text.len(),
                    feeds.as_ptr(),
                    count,
                    token.offset,
                )
            };
            black_box(position.column);
        }
    })
}
