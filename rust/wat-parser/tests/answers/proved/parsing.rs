//! Calls of a parser, and of a cursor at the start of a text.

use super::cursors::{annotation, comment, id, seen, taken};
use super::replaying::{full_replies, replies};
use super::{lexing, refusal, token};
use crate::row::{Refusals, Row};
use crate::sources::Buffer;
use wat_lex::proved::error::Error;
use wat_lex::proved::lexer::{Lexer, Token, TokenKind};
use wat_lex::shim::alloc::Global;
use wat_lex::shim::string::String as Text;
use wat_parser::proved::laws;
use wat_parser::proved::parser::{ParseBuffer, Parser};
use wat_parser::proved::token::{LParen, RParen};

/// Consumes the next token. Returns `None` at the end of the text.
fn take(parser: &mut Parser) -> Result<Option<Token>, Error> {
    parser.step(|cursor| match cursor.any()? {
        Some((token, next)) => Ok((Some(token), next)),
        None => Ok((None, cursor)),
    })
}

/// Creates a parser with a registered name, or without one if `name` is empty.
fn parser_under<'b>(buffer: &'b Buffer, name: &str) -> Result<Parser<'b>, Error> {
    let mut parser = buffer.parser();
    if !name.is_empty() {
        parser.register_annotation(name)?;
    }
    Ok(parser)
}

/// Lists the visible tokens, with a registered name or without one, and the error after them.
pub fn shown(refusals: Refusals, buffer: &Buffer, name: &str) -> Result<String, Error> {
    let mut parser = parser_under(buffer, name)?;
    let mut shown = Vec::new();
    loop {
        match take(&mut parser) {
            Ok(Some(found)) => shown.push(token(found)),
            Ok(None) => return Ok(shown.join(", ")),
            Err(error) => {
                shown.push(refusal(refusals, &error));
                return Ok(shown.join(", "));
            }
        }
    }
}

/// Lists the raw tokens, and the lexical error after them.
fn raw(buffer: &Buffer) -> String {
    let fault = buffer.lex_fault();
    let fault = fault.map(|fault| format!("{:?} at {}", fault.error, fault.offset));
    let tokens = buffer.raw().map(token);
    tokens.chain(fault).collect::<Vec<_>>().join(", ")
}

/// Returns the raw token of this index, and the text in which it is replaced by spaces, or `None` if it is not a comment.
pub fn blanked_at(text: &str, number: usize) -> Result<Option<(Token, Text)>, Error> {
    let mut lexer = Lexer::new(text);
    lexer.allow_confusing_unicode(true);
    let buffer = ParseBuffer::new_with_lexer(Global, lexer)?;
    match buffer.raw().get(number) {
        Some(token) if matches!(token.kind, TokenKind::LineComment | TokenKind::BlockComment) => {
            Ok(Some((*token, laws::blanked(Global, text, token)?)))
        }
        _ => Ok(None),
    }
}

/// Replaces the raw token of the case's index by spaces.
fn blanked(row: &Row) -> Result<String, Error> {
    let blanked = blanked_at(&row.text, row.at())?;
    Ok(blanked.map_or("no comment".to_owned(), |(_, other)| other.into()))
}

/// Returns the number of visible tokens, with a registered name or without one, and the end offset of the last.
fn counted(row: &Row, buffer: &Buffer) -> Result<String, Error> {
    let mut parser = parser_under(buffer, row.with)?;
    let mut count = 0;
    while take(&mut parser)?.is_some() {
        count += 1;
    }
    Ok(format!(
        "{count} tokens, place {}",
        parser.prev_span().offset()
    ))
}

/// Returns the parenthesis that two peeks recognize.
fn side(left: Result<bool, Error>, right: Result<bool, Error>) -> Result<&'static str, Error> {
    Ok(match (left, right) {
        (Ok(true), Ok(false)) => "left",
        (Ok(false), Ok(true)) => "right",
        (Ok(false), Ok(false)) => "none",
        (Err(error), _) | (_, Err(error)) if error.is_out_of_memory() => return Err(error),
        (Err(_), Err(_)) => "fault",
        _ => "unclear",
    })
}

/// Returns the parentheses that the next 3 tokens are.
fn peeks(parser: &Parser) -> Result<String, Error> {
    let first = side(parser.peek::<LParen>(), parser.peek::<RParen>())?;
    let second = side(parser.peek2::<LParen>(), parser.peek2::<RParen>())?;
    let third = side(parser.peek3::<LParen>(), parser.peek3::<RParen>())?;
    Ok(format!("{first}, {second}, {third}"))
}

pub fn answer(row: &Row) -> Option<Result<String, Error>> {
    let buffer = row.source.buffer_with_lexer(lexing::lexer(row));
    let buffer = buffer.expect("memory");
    let mut parser = buffer.parser();
    Some(match row.call {
        "shown" | "shown-allowing" => shown(row.refusals, &buffer, row.with),
        "raw" => Ok(raw(&buffer)),
        "blanked" => blanked(row),
        "counted" => counted(row, &buffer),
        "replay" => replies(&buffer, row.with),
        "replay-full" => full_replies(&buffer, row.with),
        "peeks" => peeks(&parser),
        "end" => {
            let offset = parser.cur_span().offset();
            Ok(format!("{} at {offset}", parser.is_empty()))
        }
        "meaning" => Ok(parser.has_meaningful_tokens().to_string()),
        "seen" => parser.step(|cursor| Ok((seen(cursor)?, cursor))),
        "taken" => parser.step(|cursor| Ok((taken(cursor)?, cursor))),
        "id" => parser.step(|cursor| Ok((id(cursor)?, cursor))),
        "annotation-shown" => parser.step(|cursor| Ok((annotation(cursor)?, cursor))),
        "comment" => parser.step(|cursor| Ok((comment(cursor)?, cursor))),
        _ => return None,
    })
}
