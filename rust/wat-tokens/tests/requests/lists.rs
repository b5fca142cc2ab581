//! Test cases of lists, and of groups in parentheses that are rejected, after which position and depth must be restored.

use crate::cursors::is_at_start;
use crate::refusing::ended;
use crate::row::{Ending, Row};
use std::fmt::Debug;
use wat_lex::proved::error::Error;
use wat_parser::proved::parser::Parser;
use wat_parser::proved::token::Parens;

/// Parses `count` nested groups, and checks the depth in each.
fn nested(parser: &mut Parser, count: usize) -> Result<(), Error> {
    if count == 0 {
        return Ok(());
    }
    parser.parens(|parser: &mut Parser| {
        parser.depth_check()?;
        nested(parser, count - 1)
    })
}

fn groups(row: &Row, parser: &mut Parser) -> Ending {
    let count = row.of.parse().expect("a count");
    let result = ended(nested(parser, count));
    assert!(is_at_start(parser), "{}", row.name);
    row.ending(&result)
}

fn group_of_type(row: &Row, parser: &mut Parser) -> Ending {
    let result = ended(parser.parens_of::<u32>());
    assert!(is_at_start(parser), "{}", row.name);
    row.ending(&result)
}

/// Checks the result of parsing. The depth must be 0, and the parser at the expected position, or not after it if an allocation failed.
pub fn read<T: Debug>(row: &Row, parser: &Parser, result: &Result<T, Error>) -> Ending {
    let ending = row.ending(result);
    let place = parser.prev_span().offset();
    assert_eq!(parser.parens_depth(), 0, "{}", row.name);
    match ending {
        Ending::Answer => assert_eq!(place, row.place, "{}", row.name),
        Ending::Memory => assert!(place <= row.place, "{}: {place}", row.name),
    }
    ending
}

/// Parses a list of integers: up to the end, while a peek finds one, or while a peek finds one in parentheses.
fn list(row: &Row, parser: &mut Parser) -> Ending {
    match row.of {
        "of" => {
            let result = ended(parser.all_of::<u32>());
            read(row, parser, &result)
        }
        "while" => {
            let result = ended(parser.all_while::<u32, u32>());
            read(row, parser, &result)
        }
        "after" => {
            let result = ended(parser.all_after::<u32, Parens<u32>>());
            read(row, parser, &result)
        }
        of => panic!("{}: no {of}", row.name),
    }
}

pub fn ending(row: &Row, parser: &mut Parser) -> Ending {
    match row.call {
        "group" => groups(row, parser),
        "group-of" => group_of_type(row, parser),
        _ => list(row, parser),
    }
}
