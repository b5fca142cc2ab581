//! Calls that are replayed on a parser.

use super::token;
use crate::sources::Buffer;
use wat_lex::proved::error::Error;
use wat_lex::shim::alloc::{AllocError, Global};
use wat_lex::shim::string::String as Text;
use wat_lex::shim::vec::Vec as Calls;
use wat_parser::proved::parser::{Call, FaultKind, Parser, Reply, replay};

/// Parses a call: `reg=NAME`, `unreg=NAME`, `parens=COUNT`, `take`, `comment` or `look`.
fn call(word: &str) -> Result<Call, AllocError> {
    Ok(match word.split_once('=').unwrap_or((word, "")) {
        ("reg", name) => Call::Register(Text::from_str(Global, name)?),
        ("unreg", name) => Call::Unregister(Text::from_str(Global, name)?),
        ("parens", count) => Call::Parens(count.parse().expect("a count")),
        ("take", _) => Call::Take,
        ("comment", _) => Call::Comment,
        ("look", _) => Call::Look,
        _ => panic!("{word} is no call"),
    })
}

fn shown(reply: &Reply) -> String {
    match reply {
        Reply::Token(found) => token(*found),
        Reply::End => "end".to_owned(),
        Reply::Fault(at, FaultKind::Lex(error)) => format!("fault {at} {error}"),
        Reply::Fault(at, FaultKind::Unclosed) => format!("fault {at} unclosed annotation"),
        Reply::Comment(offset, len) => format!("comment {offset}..{}", offset + *len as usize),
        Reply::Done => "done".to_owned(),
        Reply::Absent => "absent".to_owned(),
        Reply::NotOpen(at) => format!("not open {at}"),
        Reply::NotClosed(at) => format!("not closed {at}"),
        Reply::TooOften => "too often".to_owned(),
    }
}

/// Replays calls that are separated by commas, and returns the replies and the parser's position after them.
fn replied(parser: &mut Parser, words: &str) -> Result<String, Error> {
    let mut calls = Calls::new(Global);
    for word in words.split(',') {
        calls.push(call(word)?).map_err(AllocError::from)?;
    }
    let replies = replay(Global, parser, &calls)?;
    let shown: Vec<String> = replies.iter().map(shown).collect();
    let place = parser.prev_span().offset();
    Ok(format!("{}, place {place}", shown.join(", ")))
}

/// Replays calls on a parser at the start of a text.
pub fn replies(buffer: &Buffer, words: &str) -> Result<String, Error> {
    replied(&mut buffer.parser(), words)
}

/// Registers `a` `usize::MAX` times, the maximum.
pub fn register_fully(parser: &mut Parser) -> Result<(), Error> {
    parser.register_annotation("a")?;
    parser.set_registrations("a", usize::MAX);
    Ok(())
}

/// Replays calls on a parser in which `a` is registered `usize::MAX` times.
pub fn full_replies(buffer: &Buffer, words: &str) -> Result<String, Error> {
    let mut parser = buffer.parser();
    register_fully(&mut parser)?;
    replied(&mut parser, words)
}
