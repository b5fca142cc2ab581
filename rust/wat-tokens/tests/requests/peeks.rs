//! Test cases of peeks at types, which must not advance the parser.

use crate::cursors::is_at_start;
use crate::refusing::ended;
use crate::row::{Ending, Row};
use crate::words::Comma;
use wat_lex::proved::error::Error;
use wat_lex::shim::borrow::{CowSlice, CowStr};
use wat_parser::proved::parser::Parser;
use wat_parser::proved::token::{Id, Index, ItemRef, LParen, RParen, ReservedSymbol};
use wat_parser::proved::{annotation, kw};

fn is_seen(row: &Row, parser: &Parser) -> Result<bool, Error> {
    match row.of {
        "u8" => parser.peek::<u8>(),
        "u16" => parser.peek::<u16>(),
        "u32" => parser.peek::<u32>(),
        "u64" => parser.peek::<u64>(),
        "i8" => parser.peek::<i8>(),
        "i16" => parser.peek::<i16>(),
        "i32" => parser.peek::<i32>(),
        "i64" => parser.peek::<i64>(),
        "bytes" => parser.peek::<CowSlice<u8>>(),
        "text" => parser.peek::<CowStr>(),
        "id" => parser.peek::<Id>(),
        "index" => parser.peek::<Index>(),
        "item" => parser.peek::<ItemRef<kw::func>>(),
        "lparen" => parser.peek::<LParen>(),
        "rparen" => parser.peek::<RParen>(),
        "reserved" => parser.peek::<ReservedSymbol<Comma>>(),
        "keyword" => parser.peek::<kw::func>(),
        "annotation" => parser.peek::<annotation::name>(),
        "second" => parser.peek2::<u32>(),
        "third" => parser.peek3::<LParen>(),
        of => panic!("{}: no {of}", row.name),
    }
}

/// Peeks at the second token, which is the last of the text, and at the missing third.
fn at_end(row: &Row, parser: &Parser) -> Ending {
    let (second, third) = (parser.peek2::<RParen>(), parser.peek3::<RParen>());
    let is_empty = ended(parser.is_empty());
    assert!(
        matches!((second, third, is_empty), (Ok(true), Ok(false), false)),
        "{}",
        row.name
    );
    assert!(is_at_start(parser), "{}", row.name);
    Ending::Answer
}

pub fn ending(row: &Row, parser: &Parser) -> Ending {
    if row.of == "at-end" {
        return at_end(row, parser);
    }
    let seen = ended(is_seen(row, parser));
    assert!(is_at_start(parser), "{}", row.name);
    row.ending(&seen)
}
