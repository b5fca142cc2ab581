//! Errors, and lines and columns of offsets.

use crate::row::Row;
use std::str;
use wat_lex::proved::error::{Error, Rendered};
use wat_lex::proved::lexer::{LexError, LexFault};
use wat_lex::proved::token::{LineIndex, Span};
use wat_lex::shim::alloc::Global;
use wat_lex::shim::string::String as Text;

/// A buffer size that no report fills.
const LONGEST: usize = 128;
/// The buffer size of truncated reports.
const CUT: usize = 30;

/// Creates the report of an unclosed comment.
fn rendered(text: &str, offset: usize) -> Rendered<'_> {
    let error = LexError::DanglingBlockComment;
    Rendered::new(text, LexFault { offset, error })
}

/// Writes a report to a buffer of `ROOM` bytes, and checks that the bytes after it are unchanged.
fn written<const ROOM: usize>(rendered: Rendered) -> String {
    let mut bytes = [7; ROOM];
    let count = rendered.write_to(&mut bytes);
    assert!(bytes[count..].iter().all(|byte| *byte == 7));
    str::from_utf8(&bytes[..count]).expect("a text").to_owned()
}

/// Returns the lexical error of this name, with characters or an integer from `with`.
fn lex_error(name: &str, with: &str) -> LexError {
    let mut characters = with.chars();
    let first = characters.next().unwrap_or(' ');
    match name {
        "DanglingBlockComment" => LexError::DanglingBlockComment,
        "Unexpected" => LexError::Unexpected(first),
        "InvalidStringElement" => LexError::InvalidStringElement(first),
        "InvalidStringEscape" => LexError::InvalidStringEscape(first),
        "InvalidHexDigit" => LexError::InvalidHexDigit(first),
        "InvalidDigit" => LexError::InvalidDigit(first),
        "Expected" => LexError::Expected {
            wanted: first,
            found: characters.next().expect("a second character"),
        },
        "UnexpectedEof" => LexError::UnexpectedEof,
        "NumberTooBig" => LexError::NumberTooBig,
        "InvalidUnicodeValue" => {
            LexError::InvalidUnicodeValue(u32::from_str_radix(with, 16).expect("a number"))
        }
        "LoneUnderscore" => LexError::LoneUnderscore,
        "ConfusingUnicode" => LexError::ConfusingUnicode(first),
        "InvalidUtf8Id" => LexError::InvalidUtf8Id,
        "EmptyId" => LexError::EmptyId,
        "EmptyAnnotation" => LexError::EmptyAnnotation,
        _ => panic!("{name} is no fault"),
    }
}

fn index(text: &str) -> Result<LineIndex<'_>, Error> {
    Ok(LineIndex::new(Global, text)?)
}

pub fn answer(row: &Row) -> Option<Result<String, Error>> {
    let text = row.text.as_str();
    let span = Span::from_offset(row.at());
    let lexical = |span, text, error| Err(Error::lex(Global, span, text, error));
    Some(match row.call {
        "place" => Ok(format!("{:?}", span.linecol_in(text))),
        "index-place" => index(text).map(|lines| format!("{:?}", lines.linecol(span))),
        "index-utf16-place" => index(text).map(|lines| format!("{:?}", lines.utf16_linecol(span))),
        "error" => Text::from_str(Global, "m")
            .map_err(Error::from)
            .and_then(|message| Err(Error::parse(Global, span, text, message))),
        "dangling" => lexical(span, text, LexError::DanglingBlockComment),
        "message" => lexical(Span::from_offset(2), "a\nb c", lex_error(row.with, text)),
        "rendered" => Ok(rendered(text, row.at()).to_string()),
        "written" => Ok(written::<LONGEST>(rendered(text, row.at()))),
        "cut" => Ok(written::<CUT>(rendered(text, row.at()))),
        _ => return None,
    })
}
