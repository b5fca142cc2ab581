//! Calls on long texts or in deeply nested groups. Their results are lengths.

use super::parsing::blanked_at;
use crate::row::Row;
use crate::sources::Source;
use wat_lex::proved::error::Error;
use wat_lex::proved::token::Span;
use wat_lex::shim::alloc::{AllocError, Global};
use wat_lex::shim::string::String as Text;
use wat_lex::shim::vec::Vec as Calls;
use wat_parser::proved::parser::{Call, Parser, replay};

/// Parses the whole text as one string.
fn string(source: Source, text: &str) -> Result<String, Error> {
    let buffer = source.buffer(text)?;
    Ok(format!(
        "a string of {} bytes",
        buffer.parse::<Text>()?.len()
    ))
}

/// Registers the words of a text as names, and returns the number of registered ones.
fn names(source: Source, text: &str) -> Result<String, Error> {
    let buffer = source.buffer("")?;
    let mut parser = buffer.parser();
    for name in text.split(' ') {
        parser.register_annotation(name)?;
    }
    let registered = text.split(' ').filter(|name| parser.is_registered(name));
    Ok(format!("{} names", registered.count()))
}

/// Creates an error with the text as its message.
fn message(source: Source, text: &str) -> Result<String, Error> {
    let buffer = source.buffer("")?;
    let error = buffer.parser().error_at(Span::from_offset(0), text);
    Ok(format!(
        "a message of {} bytes",
        error.message(Global)?.len()
    ))
}

/// Peeks `count` times at the next token.
fn looks(source: Source, text: &str, count: usize) -> Result<String, Error> {
    let buffer = source.buffer(text)?;
    let mut parser = buffer.parser();
    let mut calls = Calls::new(Global);
    for _ in 0..count {
        calls.push(Call::Look).map_err(AllocError::from)?;
    }
    let replies = replay(Global, &mut parser, &calls)?.len();
    Ok(format!(
        "{replies} replies, place {}",
        parser.prev_span().offset()
    ))
}

/// Peeks inside `count` nested groups, and returns the number of replies.
fn look_within(parser: &mut Parser, count: usize) -> Result<usize, Error> {
    if count == 0 {
        return Ok(replay(Global, parser, &[Call::Look])?.len());
    }
    parser.parens(|parser: &mut Parser| look_within(parser, count - 1))
}

fn deep_look(source: Source, text: &str, count: usize) -> Result<String, Error> {
    let buffer = source.buffer(text)?;
    let replies = look_within(&mut buffer.parser(), count)?;
    Ok(format!("{replies} replies in {count} groups"))
}

/// Replaces the comment at the start of a text by spaces.
fn blanked(text: &str) -> Result<String, Error> {
    let Some((_, other)) = blanked_at(text, 0)? else {
        return Ok("no comment".to_owned());
    };
    let (all, rest) = (other.len(), other.trim_start_matches(' ').len());
    Ok(format!(
        "a text of {all} bytes, {rest} of them after spaces"
    ))
}

pub fn answer(row: &Row) -> Option<Result<String, Error>> {
    let (source, text) = (row.source, &row.text);
    Some(match row.call {
        "long-string" => string(source, text),
        "long-names" => names(source, text),
        "long-message" => message(source, text),
        "many-looks" => looks(source, text, row.at()),
        "deep-look" => deep_look(source, text, row.at()),
        "long-blanked" => blanked(text),
        _ => return None,
    })
}
