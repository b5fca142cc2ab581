//! Types as which a whole text is parsed.

use super::lexing;
use crate::printed::printed;
use crate::row::Row;
use crate::sources::Buffer;
use std::fmt::Debug;
use wat_lex::proved::error::Error;
use wat_parser::proved::parser::Parse;
use wat_parser::proved::token::{Id, ReservedSymbol, Word};
use wat_parser::proved::{annotation, kw};

/// The reserved symbol `<=>`.
#[derive(Clone, Copy, Debug)]
pub struct Spaceship;

impl Word for Spaceship {
    const AT: bool = false;

    fn word() -> &'static str {
        "<=>"
    }

    fn display() -> &'static str {
        "`<=>`"
    }
}

/// Parses the whole text as a type.
fn value<'a, T: Parse<'a> + Debug>(buffer: &'a Buffer<'_>) -> Result<String, Error> {
    Ok(printed(&buffer.parse::<T>()?))
}

/// Parses the whole text as one of the types: those at the ends of the standard lists, a custom one, an integer, and an optional identifier.
pub fn answer(row: &Row) -> Option<Result<String, Error>> {
    let buffer = row.source.buffer_with_lexer(lexing::lexer(row));
    let buffer = &buffer.expect("memory");
    Some(match row.call {
        "u32" | "u32-strict" => value::<u32>(buffer),
        "Option<Id>" => value::<Option<Id>>(buffer),
        "kw::after" => value::<kw::after>(buffer),
        "kw::nan_arithmetic" => value::<kw::nan_arithmetic>(buffer),
        "kw::string_latin1_utf16" => value::<kw::string_latin1_utf16>(buffer),
        "kw::external_id" => value::<kw::external_id>(buffer),
        "annotation::custom" => value::<annotation::custom>(buffer),
        "annotation::producers" => value::<annotation::producers>(buffer),
        "annotation::dylink_0" => value::<annotation::dylink_0>(buffer),
        "annotation::metadata_code_branch_hint" => {
            value::<annotation::metadata_code_branch_hint>(buffer)
        }
        "ReservedSymbol<Spaceship>" => value::<ReservedSymbol<Spaceship>>(buffer),
        _ => return None,
    })
}
