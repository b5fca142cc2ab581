//! Test cases of errors and of the source texts that are attached to them.

use crate::cursors::is_at_start;
use crate::refusing::ended;
use crate::row::{Ending, Row};
use wat_lex::proved::error::Error;
use wat_lex::proved::lexer::LexError;
use wat_lex::proved::token::Span;
use wat_lex::shim::alloc::Global;
use wat_lex::shim::string::String as Text;

const WITH_TEXT: &str = "m\n     --> <anon>:1:2\n      |\n    1 | a(;\n      |  ^";

/// Builds a lexical error at the byte offset of the test case.
fn lexical(row: &Row, error: LexError) -> Ending {
    let span = Span::from_offset(row.offset.expect("a byte"));
    row.refusal(&ended(Error::lex(Global, span, &row.text, error)))
}

fn message(row: &Row) -> Result<Ending, Error> {
    let message = Text::from_str(Global, "no number")?;
    let span = Span::from_offset(3);
    Ok(row.refusal(&ended(Error::parse(Global, span, &row.text, message))))
}

/// Returns an error at byte offset 1 without a source text.
fn plain() -> Result<Error, Error> {
    let message = Text::from_str(Global, "m")?;
    Ok(Error::new(Span::from_offset(1), message))
}

/// Attaches a source text to an error. If an allocation fails, the error must be unchanged.
fn text(row: &Row) -> Result<Ending, Error> {
    let mut error = plain()?;
    let result = ended(error.set_text(Global, "a(;"));
    assert_eq!(error.span().offset(), 1, "{}", row.name);
    let (ending, printed) = match result {
        Ok(()) => (Ending::Answer, WITH_TEXT),
        Err(_) => (Ending::Memory, "m at byte offset 1"),
    };
    assert_eq!(error.to_string(), printed, "{}", row.name);
    Ok(ending)
}

/// Checks that a second source text is ignored.
fn second_text(row: &Row) -> Result<Ending, Error> {
    let mut error = plain()?;
    error.set_text(Global, "a(;")?;
    let result = ended(error.set_text(Global, "b(;"));
    assert!(result.is_ok(), "{}", row.name);
    assert_eq!(error.to_string(), WITH_TEXT, "{}", row.name);
    Ok(Ending::Answer)
}

/// Checks the message of a lexical error as an owned string.
fn message_of_fault(row: &Row) -> Result<Ending, Error> {
    let span = Span::from_offset(0);
    let error = Error::lex(Global, span, "é", LexError::Unexpected('é'));
    if error.is_out_of_memory() {
        return Err(error);
    }
    let message = ended(error.message(Global));
    assert_eq!(error.to_string().lines().next(), Some(row.answer));
    Ok(match message {
        Ok(message) => {
            assert_eq!(message.as_str(), row.answer, "{}", row.name);
            Ending::Answer
        }
        Err(_) => Ending::Memory,
    })
}

/// Checks the getters of an error without a source text.
fn asked(row: &Row) -> Result<Ending, Error> {
    let error = plain()?;
    let lacking = Error::out_of_memory();
    let (place, fault) = (error.span().offset(), error.lex_error());
    let lack = ended((error.is_out_of_memory(), lacking.is_out_of_memory()));
    assert_eq!(
        (place, fault, lack),
        (1, None, (false, true)),
        "{}",
        row.name
    );
    Ok(Ending::Answer)
}

fn places(row: &Row) -> Ending {
    let span = Span::from_offset(2);
    let place = ended((span.offset(), span.linecol_in("a\nb")));
    assert_eq!(place, (2, (1, 0)), "{}", row.name);
    assert!(span < Span::from_offset(3), "{}", row.name);
    Ending::Answer
}

/// Builds an error at the position of a parser, or at another offset.
fn of_parser(row: &Row) -> Result<Ending, Error> {
    let buffer = row.source.buffer(&row.text)?;
    let parser = buffer.parser();
    let error = match row.of {
        "here" => parser.error("no number"),
        _ => parser.error_at(Span::from_offset(4), "no number"),
    };
    let error = ended(error);
    assert!(is_at_start(&parser), "{}", row.name);
    Ok(row.refusal(&error))
}

pub fn ending(row: &Row) -> Result<Ending, Error> {
    match row.of {
        "dangling" => Ok(lexical(row, LexError::DanglingBlockComment)),
        "end" => Ok(lexical(row, LexError::UnexpectedEof)),
        "parse" => message(row),
        "text" => text(row),
        "second-text" => second_text(row),
        "message" => message_of_fault(row),
        "asked" => asked(row),
        "places" => Ok(places(row)),
        "here" | "at" => of_parser(row),
        of => panic!("{}: no {of}", row.name),
    }
}
