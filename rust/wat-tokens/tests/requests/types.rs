//! Test cases of parsing types, from whole texts and with a parser.

use crate::imports::Imports;
use crate::lists::read;
use crate::refusing::ended;
use crate::row::{Ending, Row};
use crate::sources::Buffer;
use crate::words::Comma;
use std::fmt::Debug;
use wat_lex::proved::error::Error;
use wat_lex::shim::borrow::{CowSlice, CowStr};
use wat_lex::shim::boxed::Box;
use wat_lex::shim::string::String as Text;
use wat_parser::proved::parser::{Parse, Parser};
use wat_parser::proved::token::{Id, Index, ItemRef, NameAnnotation, Parens, ReservedSymbol, Span};
use wat_parser::proved::{annotation, kw};

/// Parses a whole text as a type.
fn whole<'a, T: Parse<'a> + Debug>(row: &Row, buffer: &'a Buffer<'_>) -> Ending {
    row.ending(&ended(buffer.parse::<T>()))
}

pub fn whole_ending(row: &Row) -> Result<Ending, Error> {
    let buffer = &row.source.buffer(&row.text)?;
    Ok(match row.of {
        "u32" => whole::<u32>(row, buffer),
        "i32" => whole::<i32>(row, buffer),
        "text" => whole::<CowStr>(row, buffer),
        "bytes" => whole::<CowSlice<u8>>(row, buffer),
        "id" => whole::<Id>(row, buffer),
        "item" => whole::<ItemRef<kw::func>>(row, buffer),
        "optional" => whole::<Option<u32>>(row, buffer),
        "box" => whole::<Box<u32>>(row, buffer),
        "string" => whole::<Text>(row, buffer),
        of => panic!("{}: no {of}", row.name),
    })
}

/// Parses a type with `a` registered. The name must stay registered, the depth must be 0, and the parser must be at the expected offset.
fn part<'a, T: Parse<'a> + Debug>(row: &Row, parser: &mut Parser<'a>) -> Ending {
    let result = ended(parser.parse::<T>());
    assert!(parser.is_registered("a"), "{}", row.name);
    read(row, parser, &result)
}

pub fn part_ending(row: &Row, parser: &mut Parser) -> Ending {
    match row.of {
        "u8" => part::<u8>(row, parser),
        "u16" => part::<u16>(row, parser),
        "u32" => part::<u32>(row, parser),
        "u64" => part::<u64>(row, parser),
        "i8" => part::<i8>(row, parser),
        "i16" => part::<i16>(row, parser),
        "i32" => part::<i32>(row, parser),
        "i64" => part::<i64>(row, parser),
        "spanned-u8" => part::<(u8, Span)>(row, parser),
        "spanned-u16" => part::<(u16, Span)>(row, parser),
        "spanned-u32" => part::<(u32, Span)>(row, parser),
        "spanned-u64" => part::<(u64, Span)>(row, parser),
        "spanned-i8" => part::<(i8, Span)>(row, parser),
        "spanned-i16" => part::<(i16, Span)>(row, parser),
        "spanned-i32" => part::<(i32, Span)>(row, parser),
        "spanned-i64" => part::<(i64, Span)>(row, parser),
        "bytes" => part::<CowSlice<u8>>(row, parser),
        "text" => part::<CowStr>(row, parser),
        "string" => part::<Text>(row, parser),
        "id" => part::<Id>(row, parser),
        "index" => part::<Index>(row, parser),
        "item" => part::<ItemRef<kw::func>>(row, parser),
        "optional" => part::<Option<u32>>(row, parser),
        "box" => part::<Box<u32>>(row, parser),
        "parens" => part::<Parens<u32>>(row, parser),
        "keyword" => part::<kw::func>(row, parser),
        "reserved" => part::<ReservedSymbol<Comma>>(row, parser),
        "annotation" => part::<annotation::name>(row, parser),
        "name" => part::<NameAnnotation>(row, parser),
        "imports" => part::<Imports>(row, parser),
        of => panic!("{}: no {of}", row.name),
    }
}
