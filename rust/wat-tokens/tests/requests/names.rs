//! Test cases of annotation names that are registered, permanently or while a type is parsed.

use crate::cursors::is_at_start;
use crate::refusing::ended;
use crate::row::{Ending, Row};
use wat_lex::proved::error::Error;
use wat_parser::proved::parser::{Parse, Parser};
use wat_parser::proved::token::NameAnnotation;

const STANDARD: [&str; 5] = [
    "custom",
    "producers",
    "name",
    "dylink.0",
    "metadata.code.branch_hint",
];

/// Registers `b`. Checks that it is registered if and only if the call succeeded, and that `c` is not.
fn registered(row: &Row, parser: &mut Parser) -> Ending {
    let result = ended(parser.register_annotation("b"));
    assert!(
        is_at_start(parser) && !parser.is_registered("c"),
        "{}",
        row.name
    );
    assert_eq!(parser.is_registered("b"), result.is_ok(), "{}", row.name);
    row.ending(&result)
}

/// Registers a name, whose annotations are visible from then on. If an allocation fails, the names must be unchanged.
fn register(row: &Row, parser: &mut Parser) -> Ending {
    let ending = registered(row, parser);
    let shown = if ending == Ending::Memory { 5 } else { 0 };
    assert_eq!(parser.cur_span().offset(), shown, "{}", row.name);
    ending
}

/// Registers a name in addition to the standard annotations.
fn register_more(row: &Row, parser: &mut Parser) -> Ending {
    let ending = registered(row, parser);
    assert!(
        STANDARD.iter().all(|name| parser.is_registered(name)),
        "{}",
        row.name
    );
    ending
}

/// Checks that a name with the maximum count of registrations cannot be registered again, and stays registered.
fn register_too_often(row: &Row, parser: &mut Parser) -> Result<Ending, Error> {
    register_fully(parser)?;
    let result = ended(parser.register_annotation("b"));
    assert!(
        is_at_start(parser) && parser.is_registered("b"),
        "{}",
        row.name
    );
    Ok(row.ending(&result))
}

/// Registers `b` with the maximum count of registrations.
pub fn register_fully(parser: &mut Parser) -> Result<(), Error> {
    parser.register_annotation("b")?;
    parser.set_registrations("b", usize::MAX);
    Ok(())
}

/// Registers a registered name again, and unregisters it once.
fn register_again(row: &Row, parser: &mut Parser) -> Ending {
    let result = parser.register_annotation("b");
    let is_registered = parser.is_registered("b");
    parser.unregister_annotation("b");
    ended(());
    assert!(
        result.is_ok() && is_registered && parser.is_registered("b"),
        "{}",
        row.name
    );
    assert!(!parser.is_registered("c"), "{}", row.name);
    Ending::Answer
}

/// A type that parses an optional `(@name ..)` annotation.
#[derive(Debug)]
struct OptionalName<'a>(Option<NameAnnotation<'a>>);

impl<'a> Parse<'a> for OptionalName<'a> {
    fn parse(parser: &mut Parser<'a>) -> Result<OptionalName<'a>, Error> {
        Ok(OptionalName(NameAnnotation::parse_option(parser)?))
    }
}

/// Parses a type with a name registered during the call. Even if it fails, the name must be registered afterwards if and only if it was before.
fn under_name(row: &Row, parser: &mut Parser) -> Ending {
    let is_registered = parser.is_registered("b");
    let result = ended(parser.with_annotation::<Option<u32>>("b"));
    assert_eq!(parser.is_registered("b"), is_registered, "{}", row.name);
    assert!(is_at_start(parser), "{}", row.name);
    row.ending(&result)
}

/// Parses a type that is rejected, with a name registered during the call that was registered before.
fn under_registered_name(row: &Row, parser: &mut Parser) -> Ending {
    let result = ended(parser.with_annotation::<u32>("b"));
    assert!(
        is_at_start(parser) && parser.is_registered("b"),
        "{}",
        row.name
    );
    row.ending(&result)
}

/// Parses a type with the standard annotations registered during the call. All of them must be unregistered afterwards.
fn under_standard(row: &Row, parser: &mut Parser) -> Ending {
    let result = ended(parser.with_standard_annotations_registered::<OptionalName>());
    let none = STANDARD.iter().all(|name| !parser.is_registered(name));
    let is_read = matches!(result, Ok(OptionalName(Some(_))));
    let place = if is_read { row.place } else { 0 };
    let left = (none, parser.prev_span().offset(), parser.parens_depth());
    assert_eq!(left, (true, place, 0), "{}", row.name);
    row.ending(&result)
}

/// Parses an optional name that must be decoded.
pub fn optional(row: &Row, parser: &mut Parser) -> Ending {
    let result = ended(NameAnnotation::parse_option(parser));
    let place = if result.is_ok() { row.place } else { 0 };
    let left = (parser.prev_span().offset(), parser.parens_depth());
    assert_eq!(left, (place, 0), "{}", row.name);
    assert!(parser.is_registered("name"), "{}", row.name);
    row.ending(&result)
}

pub fn ending(row: &Row, parser: &mut Parser) -> Result<Ending, Error> {
    match row.of {
        "register" => Ok(register(row, parser)),
        "more" => Ok(register_more(row, parser)),
        "too-often" => register_too_often(row, parser),
        "again" => Ok(register_again(row, parser)),
        "with" => Ok(under_name(row, parser)),
        "with-registered" => Ok(under_registered_name(row, parser)),
        "with-standard" => Ok(under_standard(row, parser)),
        of => panic!("{}: no {of}", row.name),
    }
}
