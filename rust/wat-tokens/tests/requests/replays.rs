//! Test cases of replaying a list of a parser's calls.

use crate::cursors::is_at_start;
use crate::names::register_fully;
use crate::refusing::ended;
use crate::row::{Ending, Row};
use wat_lex::proved::error::Error;
use wat_lex::shim::alloc::{AllocError, Global};
use wat_lex::shim::string::String as Text;
use wat_lex::shim::vec::Vec;
use wat_parser::proved::parser::{Call, Parser, replay};

/// Parses a call: `reg=NAME`, `unreg=NAME`, `take` or `look`.
fn call(word: &str) -> Result<Call, AllocError> {
    Ok(match word.split_once('=').unwrap_or((word, "")) {
        ("reg", name) => Call::Register(Text::from_str(Global, name)?),
        ("unreg", name) => Call::Unregister(Text::from_str(Global, name)?),
        ("take", _) => Call::Take,
        ("look", _) => Call::Look,
        _ => panic!("{word} is no call"),
    })
}

fn calls(words: &str) -> Result<Vec<Call>, Error> {
    let mut calls = Vec::new(Global);
    for word in words.split(',') {
        calls.push(call(word)?).map_err(AllocError::from)?;
    }
    Ok(calls)
}

/// Replays calls that register and unregister a name after a token. If an allocation fails, some of the calls may have taken effect.
fn all(row: &Row, parser: &mut Parser) -> Result<Ending, Error> {
    let calls = calls("take,look,reg=name,look,unreg=name,look,unreg=name")?;
    let result = ended(replay(Global, parser, &calls));
    let (is_refused, is_registered) = (result.is_err(), parser.is_registered("name"));
    match parser.prev_span().offset() {
        0 => assert!(is_refused && !is_registered, "{}", row.name),
        6 => assert!(is_refused || !is_registered, "{}", row.name),
        place => panic!("{}: {place}", row.name),
    }
    assert_eq!(parser.parens_depth(), 0, "{}", row.name);
    Ok(row.ending(&result.map_err(Error::from)))
}

/// Checks that a name with the maximum count of registrations is not registered again.
fn too_often(row: &Row, parser: &mut Parser) -> Result<Ending, Error> {
    let calls = calls("reg=b")?;
    register_fully(parser)?;
    let result = ended(replay(Global, parser, &calls));
    assert!(
        is_at_start(parser) && parser.is_registered("b"),
        "{}",
        row.name
    );
    Ok(row.ending(&result.map_err(Error::from)))
}

pub fn ending(row: &Row, parser: &mut Parser) -> Result<Ending, Error> {
    match row.of {
        "all" => all(row, parser),
        "too-often" => too_often(row, parser),
        of => panic!("{}: no {of}", row.name),
    }
}
