//! Calls with closures: their results, and the parser's position after them.

use super::refusal;
use crate::row::Row;
use wat_lex::proved::error::Error;
use wat_lex::proved::token::Span;
use wat_parser::proved::parser::Parser;

/// Consumes a keyword.
fn keyword<'a>(parser: &mut Parser<'a>) -> Result<&'a str, Error> {
    parser.step(|cursor| match cursor.keyword()? {
        Some(found) => Ok(found),
        None => Err(cursor.error("expected a keyword")),
    })
}

/// Consumes two keywords.
fn two_keywords(parser: &mut Parser) -> Result<String, Error> {
    let first = keyword(parser)?;
    let second = keyword(parser)?;
    Ok(format!("{first} and {second}"))
}

/// Consumes a group of a keyword and an inner group with a keyword, and a keyword after them.
fn two_groups(parser: &mut Parser) -> Result<String, Error> {
    parser.parens(|parser| {
        keyword(parser)?;
        parser.parens(keyword)
    })?;
    let place = parser.prev_span().offset();
    let after = keyword(parser)?;
    Ok(format!("groups up to {place}, {after}"))
}

/// Registers a name inside a group, and returns an error from the group.
fn refused_group(parser: &mut Parser) -> Result<String, Error> {
    parser.parens(|parser| {
        parser.register_annotation("a")?;
        keyword(parser)?;
        Err(parser.error("no group"))
    })
}

/// Consumes `count` nested groups, and checks the depth in each.
fn nested(parser: &mut Parser, count: usize) -> Result<(), Error> {
    if count == 0 {
        return Ok(());
    }
    parser.parens(|parser: &mut Parser| {
        parser.depth_check()?;
        nested(parser, count - 1)
    })
}

/// Consumes three nested groups, of which the innermost is empty.
fn three_groups(parser: &mut Parser) -> Result<String, Error> {
    nested(parser, 3)?;
    Ok("three groups".to_owned())
}

/// Consumes a keyword and `count` nested groups.
fn groups(parser: &mut Parser, count: usize) -> Result<String, Error> {
    keyword(parser)?;
    nested(parser, count)?;
    Ok(format!("{count} groups"))
}

/// Consumes a keyword, and returns an error at the next token or at an offset.
fn refused_after(parser: &mut Parser, at: &str) -> Result<String, Error> {
    keyword(parser)?;
    Err(match at.parse() {
        Ok(at) => parser.error_at(Span::from_offset(at), "no word"),
        Err(_) => parser.error("no more"),
    })
}

/// Runs a call, and appends the parser's position and depth, and whether `a` is registered.
pub fn answer(row: &Row) -> Option<String> {
    let buffer = row.source.buffer(&row.text).expect("memory");
    let parser = &mut buffer.parser();
    let answered = match row.call {
        "two-keywords" => two_keywords(parser),
        "two-groups" => two_groups(parser),
        "three-groups" => three_groups(parser),
        "refused-group" => refused_group(parser),
        "nested" => groups(parser, row.at()),
        "refused-after" => refused_after(parser, row.with),
        _ => return None,
    };
    let answer = answered.unwrap_or_else(|error| refusal(row.refusals, &error));
    let (place, depth) = (parser.prev_span().offset(), parser.parens_depth());
    let registered = if parser.is_registered("a") {
        ", a registered"
    } else {
        ""
    };
    Some(format!(
        "{answer}; place {place}, depth {depth}{registered}"
    ))
}
