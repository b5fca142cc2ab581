//! Calls of the verified library.

mod blanking;
mod closures;
mod cursors;
mod encoding;
mod errors;
mod lengths;
mod lexing;
mod parsing;
mod replaying;
mod typed;
mod types;

use crate::row::{Refusals, Row};
use wat_lex::proved::error::Error;
use wat_lex::proved::lexer::{Token, TokenKind};
use wat_lex::shim::alloc::Global;

/// A group of calls, which runs a test case, or returns `None` if it does not have the call.
type Group = fn(&Row) -> Option<Result<String, Error>>;

const GROUPS: [Group; 7] = [
    lexing::answer,
    errors::answer,
    encoding::answer,
    lengths::answer,
    types::answer,
    parsing::answer,
    blanking::answer,
];

pub fn answer(row: &Row) -> Option<String> {
    let answered = GROUPS.iter().find_map(|group| group(row));
    answered
        .map(|answer| answer.unwrap_or_else(|error| refusal(row.refusals, &error)))
        .or_else(|| typed::answer(row))
        .or_else(|| closures::answer(row))
}

fn refusal(refusals: Refusals, error: &Error) -> String {
    match refusals {
        Refusals::Brief => {
            let message = error.message(Global).expect("memory for a message");
            format!("{message} at {}", error.span().offset())
        }
        Refusals::Printed => error.to_string(),
        Refusals::Cause => format!("{:?}", error.lex_error()),
    }
}

fn name(kind: TokenKind) -> &'static str {
    match kind {
        TokenKind::LineComment => "LineComment",
        TokenKind::BlockComment => "BlockComment",
        TokenKind::Whitespace => "Whitespace",
        TokenKind::LParen => "LParen",
        TokenKind::RParen => "RParen",
        TokenKind::String => "String",
        TokenKind::Id => "Id",
        TokenKind::Keyword => "Keyword",
        TokenKind::Annotation => "Annotation",
        TokenKind::Reserved => "Reserved",
        TokenKind::Integer(_) => "Integer",
        TokenKind::Float(_) => "Float",
    }
}

/// Formats a token as `Kind a..b`.
fn token(token: Token) -> String {
    let end = token.offset + token.len as usize;
    format!("{} {}..{end}", name(token.kind), token.offset)
}
