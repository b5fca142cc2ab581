//! Typed values, their copies, and the parser's position after them.

use super::refusal;
use super::replaying::register_fully;
use super::types::Spaceship;
use crate::row::Row;
use crate::sources::Buffer;
use wat_lex::proved::error::Error;
use wat_lex::shim::alloc::Global;
use wat_lex::shim::borrow::{CowSlice, CowStr};
use wat_parser::proved::parser::{Lookahead1, Parser, Peek};
use wat_parser::proved::token::{
    Id, Index, ItemRef, LParen, NameAnnotation, Parens, RParen, ReservedSymbol, Word,
};
use wat_parser::proved::{annotation, kw};
use wat_parser::words::{Std, StdAnnotation};

/// Formats an index, its offset, and whether a copy is equal in both.
fn index(index: &Index) -> Result<String, Error> {
    let (copy, place) = (index.clone(Global)?, index.span());
    let is_same = copy == *index && copy.span() == place;
    let shown = match index {
        Index::Num(number, _) => number.to_string(),
        Index::Id(id) => id.name().to_owned(),
    };
    Ok(format!("{shown} at {}, copied {is_same}", place.offset()))
}

/// Formats two indices.
fn indices(parser: &mut Parser) -> Result<String, Error> {
    let first = index(&parser.parse()?)?;
    let second = index(&parser.parse()?)?;
    Ok(format!("{first}; {second}"))
}

/// Formats an identifier, its offset, and whether a copy is equal in both.
fn identifier(parser: &mut Parser) -> Result<String, Error> {
    let id = parser.parse::<Id>()?;
    let copy = id.clone(Global)?;
    let is_same = copy.name() == id.name() && copy.span() == id.span();
    Ok(format!(
        "{} at {}, copied {is_same}",
        id.name(),
        id.span().offset()
    ))
}

/// Formats an item reference: the offset of its keyword, and its index.
fn item(parser: &mut Parser) -> Result<String, Error> {
    let item = parser.parse::<ItemRef<kw::func>>()?;
    let place = item.kind.span.offset();
    Ok(format!("kind at {place}, {}", index(&item.idx)?))
}

/// Formats an optional name, and whether a copy is equal.
fn optional_name(row: &Row, parser: &mut Parser) -> Result<String, Error> {
    if !row.with.is_empty() {
        parser.register_annotation(row.with)?;
    }
    let Some(found) = NameAnnotation::parse_option(parser)? else {
        return Ok("none".to_owned());
    };
    let is_same = found.clone(Global)?.name.as_str() == found.name.as_str();
    Ok(format!("{}, copied {is_same}", found.name))
}

/// Parses an integer under a name that is already registered `usize::MAX` times.
fn too_often(parser: &mut Parser) -> Result<String, Error> {
    register_fully(parser)?;
    Ok(parser.with_annotation::<u32>("a")?.to_string())
}

/// Registers a name `usize::MAX` times, unregisters it once, and registers it twice.
fn once_more(parser: &mut Parser) -> Result<String, Error> {
    register_fully(parser)?;
    parser.unregister_annotation("a");
    parser.register_annotation("a")?;
    parser.register_annotation("a")?;
    Ok("registered".to_owned())
}

/// Peeks at `count` types and returns `true` if one is recognized. The types differ if `count` is at most 5.
fn is_seen(lookahead: &mut Lookahead1, count: usize) -> Result<bool, Error> {
    let mut is_seen = false;
    for number in 0..count {
        is_seen |= match number {
            1 if count <= 5 => lookahead.peek::<Id>()?,
            2 if count <= 5 => lookahead.peek::<LParen>()?,
            3 if count <= 5 => lookahead.peek::<kw::func>()?,
            4 if count <= 5 => lookahead.peek::<kw::param>()?,
            _ => lookahead.peek::<u32>()?,
        };
    }
    Ok(is_seen)
}

/// Returns the error of a lookahead after `count` failed peeks.
fn report(parser: &Parser, count: usize) -> Result<String, Error> {
    let mut lookahead = parser.lookahead1();
    if is_seen(&mut lookahead, count)? {
        return Ok("seen".to_owned());
    }
    Err(lookahead.error())
}

/// Returns the display name of a type.
fn display(name: &str) -> &'static str {
    match name {
        "u8" => u8::display(),
        "u16" => u16::display(),
        "u32" => u32::display(),
        "u64" => u64::display(),
        "i8" => i8::display(),
        "i16" => i16::display(),
        "i32" => i32::display(),
        "i64" => i64::display(),
        "bytes" => CowSlice::<u8>::display(),
        "text" => CowStr::display(),
        "id" => Id::display(),
        "index" => Index::display(),
        "item" => ItemRef::<kw::func>::display(),
        "annotation" => <annotation::name as Peek>::display(),
        "left" => LParen::display(),
        "right" => RParen::display(),
        "after" => <kw::after as Peek>::display(),
        "nan_arithmetic" => <kw::nan_arithmetic as Peek>::display(),
        "string_latin1_utf16" => <kw::string_latin1_utf16 as Peek>::display(),
        "external_id" => <kw::external_id as Peek>::display(),
        "spaceship" => ReservedSymbol::<Spaceship>::display(),
        _ => panic!("{name} is no type"),
    }
}

/// Formats a token type: its `AT`, its lexeme or name, and its display name.
fn spelled<W: Word>() -> String {
    format!("{} `{}` {}", W::AT, W::word(), W::display())
}

/// Formats the token types at the ends of the standard lists, and those after them.
fn word(name: &str) -> String {
    match name {
        "last" => spelled::<Std<232>>(),
        "place-233" => spelled::<Std<233>>(),
        "annotation" => spelled::<StdAnnotation<1>>(),
        "annotation-5" => spelled::<StdAnnotation<5>>(),
        _ => panic!("{name} is no word"),
    }
}

/// Returns the value of `track_instr_spans` by default, after it was turned on, and after it was turned off.
fn tracked(mut buffer: Buffer) -> String {
    let first = buffer.parser().track_instr_spans();
    buffer.track_instr_spans(true);
    let then = buffer.parser().track_instr_spans();
    buffer.track_instr_spans(true).track_instr_spans(false);
    let last = buffer.parser().track_instr_spans();
    format!("{first}, {then}, {last}")
}

/// Runs a call of a parser.
fn called(row: &Row, parser: &mut Parser) -> Option<Result<String, Error>> {
    let list = |list: &[u32]| format!("{list:?}");
    Some(match row.call {
        "indices" => indices(parser),
        "identifier" => identifier(parser),
        "item" => item(parser),
        "optional-name" => optional_name(row, parser),
        "all-of" => parser.all_of::<u32>().map(|all| list(&all)),
        "all-while" => parser.all_while::<u32, u32>().map(|all| list(&all)),
        "all-after" => parser
            .all_after::<u32, Parens<u32>>()
            .map(|all| format!("{:?}", all.as_slice())),
        "too-often" => too_often(parser),
        "once-more" => once_more(parser),
        "report" => report(parser, row.at()),
        "peek-spaceship" => parser
            .peek::<ReservedSymbol<Spaceship>>()
            .map(|is_seen| is_seen.to_string()),
        _ => return None,
    })
}

pub fn answer(row: &Row) -> Option<String> {
    let buffer = row.source.buffer(&row.text).expect("memory");
    match row.call {
        "tracked" => return Some(tracked(buffer)),
        "display" => return Some(display(row.with).to_owned()),
        "word" => return Some(word(row.with)),
        _ => {}
    }
    let mut parser = buffer.parser();
    let answered = called(row, &mut parser)?;
    let answer = answered.unwrap_or_else(|error| refusal(row.refusals, &error));
    Some(format!("{answer}; place {}", parser.prev_span().offset()))
}
