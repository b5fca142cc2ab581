//! Test cases of a cursor's peeks and parse calls, at lexical errors and at tokens whose value must be decoded.

use crate::refusing::ended;
use crate::row::{Ending, Row};
use wat_lex::proved::error::Error;
use wat_parser::proved::parser::{Cursor, Parser};

/// Calls a method of a cursor. Returns `true` if it finds the expected kind of token.
fn is_seen(cursor: Cursor, call: &str) -> Result<bool, Error> {
    Ok(match call {
        "peek-lparen" => cursor.peek_lparen()?,
        "peek-rparen" => cursor.peek_rparen()?,
        "peek-id" => cursor.peek_id()?,
        "peek-reserved" => cursor.peek_reserved()?,
        "peek-keyword" => cursor.peek_keyword()?,
        "peek-integer" => cursor.peek_integer()?,
        "peek-float" => cursor.peek_float()?,
        "peek-string" => cursor.peek_string()?,
        "token" => cursor.token()?.is_some(),
        "any" => cursor.any()?.is_some(),
        "lparen" => cursor.lparen()?.is_some(),
        "rparen" => cursor.rparen()?.is_some(),
        "keyword" => cursor.keyword()?.is_some(),
        "reserved" => cursor.reserved()?.is_some(),
        "comment" => cursor.comment()?.is_some(),
        "cur-span" => cursor.cur_span().offset() == 0,
        "id" => cursor.id()?.is_some(),
        "annotation" => cursor.annotation()?.is_some(),
        "string" => cursor.string()?.is_some(),
        "integer" => cursor.integer()?.is_some(),
        "float" => cursor.float()?.is_some(),
        _ => panic!("no call {call} of a cursor"),
    })
}

/// Returns `true` if a parser is at the start of its text, outside of any group.
pub fn is_at_start(parser: &Parser) -> bool {
    parser.prev_span().offset() == 0 && parser.parens_depth() == 0
}

/// Makes one call of a cursor, which must not advance the parser.
pub fn look(row: &Row, parser: &mut Parser) -> Ending {
    let result = ended(parser.step(|cursor| Ok((is_seen(cursor, row.of)?, cursor))));
    assert!(is_at_start(parser), "{}", row.name);
    row.ending(&result)
}

/// Checks that a step that fails after a token does not advance the parser.
pub fn refused_step(row: &Row, parser: &mut Parser) -> Ending {
    let result = ended(parser.step(|cursor| match cursor.keyword()? {
        Some((_, next)) => Err(next.error("no such word")),
        None => Ok(((), cursor)),
    }));
    assert!(is_at_start(parser), "{}", row.name);
    row.ending(&result)
}
