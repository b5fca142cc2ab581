//! Test cases of a parser's calls that do not allocate.

use crate::refusing::ended;
use crate::row::{Ending, Row};
use wat_lex::proved::error::Error;
use wat_lex::proved::lexer::{Float, Integer};
use wat_lex::shim::borrow::{CowSlice, CowStr};
use wat_parser::proved::parser::Parser;

/// Checks the position of a parser with the calls that return no error.
fn place(row: &Row, parser: &Parser) -> Ending {
    row.ending(&Ok(ended((parser.is_empty(), parser.cur_span().offset()))))
}

/// Parses a group whose contents are of a type, and one whose contents a function parses.
fn groups(row: &Row, parser: &mut Parser) -> Ending {
    let first = parser.parens_of::<u32>();
    let second = ended(parser.parens(Parser::parse::<u32>));
    assert!(matches!((first, second), (Ok(12), Ok(13))), "{}", row.name);
    assert_eq!(parser.prev_span().offset(), 9, "{}", row.name);
    Ending::Answer
}

/// The values of a token of each kind, in the order of the text.
type Values<'a> = (
    Float<'a>,
    Integer<'a>,
    CowStr<'a>,
    CowSlice<'a, u8>,
    CowStr<'a>,
);

fn values<'a>(parser: &mut Parser<'a>) -> Result<Values<'a>, Error> {
    let float = parser.step(|cursor| Ok(cursor.float()?.expect("a float")))?;
    let integer = parser.step(|cursor| Ok(cursor.integer()?.expect("an integer")))?;
    let id = parser.step(|cursor| Ok(cursor.id()?.expect("an identifier")))?;
    let string = parser.step(|cursor| Ok(cursor.string()?.expect("a string")))?;
    let name = parser.step(|cursor| Ok(cursor.annotation()?.expect("a name")))?;
    Ok((float, integer, id, string, name))
}

/// Parses a token of each kind with a value. Each value is borrowed from the text.
fn steps(row: &Row, parser: &mut Parser) -> Ending {
    let values = ended(values(parser));
    assert_eq!(parser.prev_span().offset(), row.place, "{}", row.name);
    row.ending(&values)
}

pub fn ending(row: &Row, parser: &mut Parser) -> Ending {
    match row.of {
        "place" => place(row, parser),
        "groups" => groups(row, parser),
        "steps" => steps(row, parser),
        of => panic!("{}: no {of}", row.name),
    }
}
