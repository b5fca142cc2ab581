//! Typed values in the layer: values, their copies, the parser's position after them, and their display names.

use super::refusal;
use crate::row::Row;
use wat_parser::parser::{Parser, Peek};
use wat_parser::token::{Id, Index, ItemRef, LParen, RParen};
use wat_parser::{Error, annotation, custom_reserved, kw};

custom_reserved!(spaceship = "<=>");

/// Formats an index, its offset, and whether a copy is equal in both.
fn index(index: &Index) -> String {
    let (copy, place) = (*index, index.span());
    let is_same = copy == *index && copy.span() == place;
    let shown = match index {
        Index::Num(number, _) => number.to_string(),
        Index::Id(id) => id.name().to_owned(),
    };
    format!("{shown} at {}, copied {is_same}", place.offset())
}

fn indices(parser: Parser) -> Result<String, Error> {
    let first = index(&parser.parse()?);
    let second = index(&parser.parse()?);
    Ok(format!("{first}; {second}"))
}

/// Formats an identifier like an index.
fn identifier(parser: Parser) -> Result<String, Error> {
    let id: Id = parser.parse()?;
    Ok(index(&id.into()))
}

/// Formats an item reference: the offset of its keyword, and the index of a copy.
fn item(parser: Parser) -> Result<String, Error> {
    let item = parser.parse::<ItemRef<kw::func>>()?.clone();
    let place = item.kind.0.offset();
    Ok(format!("kind at {place}, {}", index(&item.idx)))
}

/// Runs a call of a parser at the start of the text, and appends the end offset of the consumed tokens.
pub fn answer(row: &Row, parser: Parser) -> Option<Result<String, Error>> {
    let answered = match row.call {
        "indices" => indices(parser),
        "identifier" => identifier(parser),
        "item" => item(parser),
        _ => return None,
    };
    let answer = answered.unwrap_or_else(|error| refusal(row.refusals, &error));
    Some(Ok(format!(
        "{answer}; place {}",
        parser.prev_span().offset()
    )))
}

/// Returns the display name of a type.
pub fn display(name: &str) -> &'static str {
    match name {
        "u8" => u8::display(),
        "u16" => u16::display(),
        "u32" => u32::display(),
        "u64" => u64::display(),
        "i8" => i8::display(),
        "i16" => i16::display(),
        "i32" => i32::display(),
        "i64" => i64::display(),
        "bytes" => <&[u8]>::display(),
        "text" => <&str>::display(),
        "id" => Id::display(),
        "index" => Index::display(),
        "item" => ItemRef::<kw::func>::display(),
        "annotation" => annotation::name::display(),
        "left" => LParen::display(),
        "right" => RParen::display(),
        "after" => kw::after::display(),
        "nan_arithmetic" => kw::nan_arithmetic::display(),
        "string_latin1_utf16" => kw::string_latin1_utf16::display(),
        "external_id" => kw::external_id::display(),
        "spaceship" => spaceship::display(),
        _ => panic!("{name} is no type"),
    }
}
