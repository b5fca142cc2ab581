//! Calls of the layer with the names of `wast`.

mod typed;

use crate::row::{Refusals, Row};
use std::cell::RefCell;
use std::fmt::Debug;
use wat_lex::LineIndex;
use wat_parser::encode::Encode;
use wat_parser::lexer::{Lexer, Token, TokenKind};
use wat_parser::parser::{self, Cursor, Parse, ParseBuffer, Parser};
use wat_parser::token::{Id, LParen, RParen, Span};
use wat_parser::Error;

fn refusal(refusals: Refusals, error: &Error) -> String {
    match refusals {
        Refusals::Brief => format!("{} at {}", error.message(), error.span().offset()),
        Refusals::Printed => error.to_string(),
        Refusals::Cause => format!("{:?}", error.lex_error()),
    }
}

/// Creates a lexer of a test case's text, with the settings that the call's suffix selects.
fn lexer(row: &Row) -> Lexer<'_> {
    let mut lexer = Lexer::new(&row.text);
    lexer
        .allow_confusing_unicode(row.call.ends_with("-allowing"))
        .strict_underscores(row.call.ends_with("-strict"));
    lexer
}

fn token(token: Token) -> String {
    format!(
        "{} {}..{}",
        token.kind.name(),
        token.offset,
        token.offset + token.len as usize
    )
}

/// Runs a call of the lexer.
fn lexing(row: &Row) -> Option<Result<String, Error>> {
    let (text, lexer, at) = (row.text.as_str(), lexer(row), row.at());
    Some(match row.call {
        "tokens" | "tokens-allowing" | "tokens-strict" => Ok(lexer
            .iter(0)
            .filter(|item| !matches!(item, Ok(token) if token.kind == TokenKind::Whitespace))
            .map(|item| item.map_or_else(|error| refusal(row.refusals, &error), token))
            .collect::<Vec<_>>()
            .join(", ")),
        "fault" | "fault-allowing" => Err(lexer.iter(0).find_map(Result::err)?),
        "first" => lexer
            .parse(&mut 0)
            .map(|found| found.map_or(String::new(), |token| first(token, text))),
        "scan" if !text.is_char_boundary(at) => Ok("no such byte".to_owned()),
        "scan" => Ok(match lexer.parse(&mut { at }) {
            Ok(found) => found.map_or("end".to_owned(), token),
            Err(error) => format!("{:?} at {}", error.lex_error()?, error.span().offset()),
        }),
        "resume" | "resume-allowing" | "resume-strict" => Ok(lexer
            .fault_at(at)
            .map_or("no fault".to_owned(), |_| lexer.resume(at).to_string())),
        "annotation" => lexer
            .annotation(at)
            .map(|found| found.map_or("none".to_owned(), token)),
        "read" | "read-allowing" if !text.is_char_boundary(at) => Ok("no such byte".to_owned()),
        "read" | "read-allowing" => lexer
            .parse(&mut { at })
            .and_then(|found| found.map_or(Ok(String::new()), |token| read(token, text))),
        _ => return None,
    })
}

/// Formats a token's kind, its source, and the result of the accessor of its kind.
fn first(token: Token, text: &str) -> String {
    let (kind, source) = (token.kind.name(), token.src(text));
    match token.kind {
        TokenKind::Keyword => format!("{kind} {source:?} {:?}", token.keyword(text)),
        TokenKind::Reserved => format!("{kind} {source:?} {:?}", token.reserved(text)),
        _ => format!("{kind} {source:?}"),
    }
}

/// Formats the value of a token.
fn read(token: Token, text: &str) -> Result<String, Error> {
    Ok(match token.kind {
        TokenKind::String => format!("String {:?}", token.string(text)),
        TokenKind::Id => format!("Id {:?}", token.id(text)?),
        TokenKind::Annotation => format!("Annotation {:?}", token.annotation(text)?),
        TokenKind::Integer(kind) => {
            let integer = token.integer(text, kind);
            let (digits, base) = integer.val();
            format!("Integer {:?} {digits:?} base {base}", integer.sign())
        }
        TokenKind::Float(kind) => format!("Float {:?}", token.float(text, kind)),
        other => format!("{} without a value", other.name()),
    })
}

fn encoded<T: Encode>(number: Option<T>) -> String {
    let mut bytes = Vec::new();
    number.expect("a number").encode(&mut bytes);
    format!("{bytes:?}")
}

/// Runs a call about errors, offsets, encodings or display names.
fn others(row: &Row) -> Option<Result<String, Error>> {
    let (text, span) = (row.text.as_str(), Span::from_offset(row.at()));
    Some(match row.call {
        "place" => Ok(format!("{:?}", span.linecol_in(text))),
        "index-place" => Ok(format!("{:?}", LineIndex::new(text).linecol(span))),
        "index-utf16-place" => Ok(format!("{:?}", LineIndex::new(text).utf16_linecol(span))),
        "display" => Ok(typed::display(row.with).to_owned()),
        "error" => {
            let mut error = Error::new(span, "m".to_owned());
            error.set_text(text);
            Err(error)
        }
        "encode-u32" => Ok(encoded(text.parse::<u32>().ok())),
        "encode-u64" => Ok(encoded(text.parse::<u64>().ok())),
        "encode-usize" => Ok(encoded(text.parse::<usize>().ok())),
        "encode-i32" => Ok(encoded(text.parse::<i32>().ok())),
        "encode-i64" => Ok(encoded(text.parse::<i64>().ok())),
        _ => return None,
    })
}

fn value<'a, T: Parse<'a> + Debug>(buffer: &'a ParseBuffer<'a>) -> Result<String, Error> {
    parser::parse::<T>(buffer).map(|value| format!("{value:?}"))
}

/// Parses the whole text as a type.
fn types<'a>(call: &str, buffer: &'a ParseBuffer<'a>) -> Option<Result<String, Error>> {
    Some(match call {
        "u32" | "u32-strict" => value::<u32>(buffer),
        "Option<Id>" => value::<Option<Id>>(buffer),
        _ => return None,
    })
}

/// Lists the kinds of which the cursor's `peek_` method returns `true`.
fn seen(cursor: Cursor) -> Result<String, Error> {
    let kinds = [
        ("lparen", cursor.peek_lparen()?),
        ("rparen", cursor.peek_rparen()?),
        ("id", cursor.peek_id()?),
        ("keyword", cursor.peek_keyword()?),
        ("reserved", cursor.peek_reserved()?),
        ("string", cursor.peek_string()?),
        ("integer", cursor.peek_integer()?),
        ("float", cursor.peek_float()?),
    ];
    Ok(kinds
        .iter()
        .filter(|(_, is_seen)| *is_seen)
        .map(|(kind, _)| *kind)
        .collect::<Vec<_>>()
        .join(", "))
}

/// The kind of a consumed token, its value, and the cursor after it.
type Taken<'a> = (&'static str, String, Cursor<'a>);

/// Calls each method that consumes a token, and returns the results that are not `None`.
fn takers<'a>(cursor: Cursor<'a>) -> Result<Vec<Taken<'a>>, Error> {
    let sign = |kind, value: &str, next| (kind, value.to_owned(), next);
    let word = |kind| move |(value, next): (&'a str, _)| (kind, value.to_owned(), next);
    let integer = cursor.integer()?.map(|(integer, next)| {
        let (digits, base) = integer.val();
        let value = format!("{digits} {base} {:?}", integer.sign());
        ("integer", value, next)
    });
    let string = cursor.string()?;
    let float = cursor.float()?;
    let taken = [
        cursor.lparen()?.map(|next| sign("lparen", "(", next)),
        cursor.rparen()?.map(|next| sign("rparen", ")", next)),
        cursor.id()?.map(word("id")),
        cursor.annotation()?.map(word("annotation")),
        cursor.keyword()?.map(word("keyword")),
        cursor.reserved()?.map(word("reserved")),
        string.map(|(value, next)| ("string", format!("{value:?}"), next)),
        integer,
        float.map(|(float, next)| ("float", format!("{float:?}"), next)),
    ];
    Ok(taken.into_iter().flatten().collect())
}

fn taken(cursor: Cursor) -> Result<String, Error> {
    let taken = takers(cursor)?;
    let shown = taken
        .iter()
        .map(|(kind, value, next)| format!("{kind} {value}, then {}", next.cur_span().offset()));
    Ok(shown.collect::<Vec<_>>().join(", "))
}

/// Lists the visible tokens, with the case's name registered if it has one, and the error after them.
fn shown(row: &Row, parser: Parser) -> String {
    let _registered = (!row.with.is_empty()).then(|| parser.register_annotation(row.with));
    let mut items = Vec::new();
    loop {
        let begin = parser.cur_span().offset();
        let step = parser.step(|cursor| {
            Ok(match takers(cursor)?.into_iter().next() {
                Some((kind, _, next)) => (Some(kind), next),
                None => (None, cursor),
            })
        });
        match step {
            Ok(Some(kind)) => items.push(format!(
                "{} {begin}..{}",
                shown_kind(kind),
                parser.prev_span().offset()
            )),
            Ok(None) => return items.join(", "),
            Err(error) => {
                items.push(refusal(row.refusals, &error));
                return items.join(", ");
            }
        }
    }
}

fn shown_kind(taker: &str) -> &'static str {
    match taker {
        "lparen" => "LParen",
        "rparen" => "RParen",
        "id" => "Id",
        "annotation" => "Annotation",
        "keyword" => "Keyword",
        "reserved" => "Reserved",
        "string" => "String",
        "integer" => "Integer",
        _ => "Float",
    }
}

fn side(left: Result<bool, Error>, right: Result<bool, Error>) -> &'static str {
    match (left, right) {
        (Ok(true), Ok(false)) => "left",
        (Ok(false), Ok(true)) => "right",
        (Ok(false), Ok(false)) => "none",
        (Err(_), Err(_)) => "fault",
        _ => "unclear",
    }
}

fn peeks(parser: Parser) -> String {
    let first = side(parser.peek::<LParen>(), parser.peek::<RParen>());
    let second = side(parser.peek2::<LParen>(), parser.peek2::<RParen>());
    let third = side(parser.peek3::<LParen>(), parser.peek3::<RParen>());
    format!("{first}, {second}, {third}")
}

/// Runs a call of a parser or cursor at the start of the text.
fn parsing(row: &Row, parser: Parser<'_>) -> Option<Result<String, Error>> {
    Some(match row.call {
        "shown" | "shown-allowing" => Ok(shown(row, parser)),
        "peeks" => Ok(peeks(parser)),
        "end" => Ok(format!(
            "{} at {}",
            parser.is_empty(),
            parser.cur_span().offset()
        )),
        "meaning" => Ok(parser.has_meaningful_tokens().to_string()),
        "seen" => parser.step(|cursor| Ok((seen(cursor)?, cursor))),
        "taken" => parser.step(|cursor| Ok((taken(cursor)?, cursor))),
        "id" => parser.step(|cursor| {
            Ok((
                cursor
                    .id()?
                    .map_or("none".to_owned(), |(name, _)| name.to_owned()),
                cursor,
            ))
        }),
        "annotation-shown" => parser.step(|cursor| {
            Ok((
                cursor
                    .annotation()?
                    .map_or("none".to_owned(), |(name, _)| name.to_owned()),
                cursor,
            ))
        }),
        "comment" => parser.step(|cursor| {
            let found = cursor
                .comment()?
                .map(|(comment, next)| format!("{comment} then {}", next.cur_span().offset()));
            Ok((found.unwrap_or("none".to_owned()), cursor))
        }),
        _ => return None,
    })
}

thread_local! {
    static ASKED: RefCell<Option<Row>> = const { RefCell::new(None) };
    static ANSWERED: RefCell<Option<Result<String, Error>>> = const { RefCell::new(None) };
}

/// A type whose `parse` runs the current test case and leaves the remaining tokens.
struct Asked;

impl<'a> Parse<'a> for Asked {
    fn parse(parser: Parser<'a>) -> Result<Self, Error> {
        let row = ASKED.take().expect("a row");
        ANSWERED.set(parsing(&row, parser).or_else(|| typed::answer(&row, parser)));
        Ok(Asked)
    }
}

/// Runs a test case. Returns `None` if the layer does not have the call.
pub fn answer(row: &Row) -> Option<String> {
    let answered = lexing(row).or_else(|| others(row)).or_else(|| {
        let buffer = ParseBuffer::new_with_lexer(lexer(row)).expect("memory");
        types(row.call, &buffer).or_else(|| {
            ASKED.set(Some(row.clone()));
            // The remaining tokens cause an error, which is ignored.
            let _left = parser::parse::<Asked>(&buffer);
            ANSWERED.take()
        })
    })?;
    Some(answered.unwrap_or_else(|error| refusal(row.refusals, &error)))
}
