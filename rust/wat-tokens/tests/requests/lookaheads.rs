//! Test cases of peeks at several types with a lookahead, none of which matches the next token.

use crate::cursors::is_at_start;
use crate::refusing::ended;
use crate::row::{Ending, Row};
use wat_lex::proved::error::Error;
use wat_parser::proved::parser::{Lookahead1, Parser};
use wat_parser::proved::token::{Id, LParen};

const FOUR: &str = "unexpected token, expected one of: u32, an identifier, left paren, u32";
const FIVE: &str =
    "unexpected token, expected one of: u32, an identifier, left paren, u32, an identifier";

/// Peeks at the first `types` of three types.
fn peek_at(lookahead: &mut Lookahead1, types: usize) -> Result<(), Error> {
    if types > 0 {
        lookahead.peek::<u32>()?;
    }
    if types > 1 {
        lookahead.peek::<Id>()?;
    }
    if types > 2 {
        lookahead.peek::<LParen>()?;
    }
    Ok(())
}

/// Checks the error that lists the types of the peeks.
fn expected_one(row: &Row, parser: &Parser, types: usize) -> Result<Ending, Error> {
    let mut lookahead = parser.lookahead1();
    peek_at(&mut lookahead, types)?;
    let error = ended(lookahead.error());
    assert!(is_at_start(parser), "{}", row.name);
    Ok(row.refusal(&error))
}

/// Returns `true` if a lookahead is at the start of the text, and its error has this first line.
fn reports(lookahead: Lookahead1, types: &str) -> bool {
    let is_at_start = is_at_start(lookahead.parser());
    is_at_start && lookahead.error().to_string().lines().next() == Some(types)
}

/// Checks that peeks record the types that they do not find, and that the first four do not allocate.
fn four_missed(row: &Row, parser: &Parser) -> Ending {
    let mut lookahead = parser.lookahead1();
    let three = peek_at(&mut lookahead, 3);
    let fourth = ended(lookahead.peek::<u32>());
    assert!(three.is_ok() && reports(lookahead, FOUR), "{}", row.name);
    row.ending(&fourth)
}

/// Checks the fifth peek, which allocates to record its type. If the allocation fails, the recorded types must be unchanged.
fn fifth_missed(row: &Row, parser: &Parser) -> Result<Ending, Error> {
    let mut lookahead = parser.lookahead1();
    peek_at(&mut lookahead, 3)?;
    lookahead.peek::<u32>()?;
    let fifth = ended(lookahead.peek::<Id>());
    let types = if fifth.is_ok() { FIVE } else { FOUR };
    assert!(reports(lookahead, types), "{}", row.name);
    Ok(row.ending(&fifth))
}

pub fn ending(row: &Row, parser: &Parser) -> Result<Ending, Error> {
    match row.of {
        "four" => Ok(four_missed(row, parser)),
        "fifth" => fifth_missed(row, parser),
        types => expected_one(row, parser, types.parse().expect("a count")),
    }
}
