//! Test cases of buffers, of blanking a comment, and of the compiler of function types.

use crate::refusing::ended;
use crate::row::{Ending, Row};
use wat_lex::proved::error::Error;
use wat_lex::proved::lexer::Lexer;
use wat_lex::shim::alloc::Global;
use wat_parser::proved::laws;
use wat_parser::proved::parser::{LazyBuffer, ParseBuffer};
use wat_tokens::types::compile_types;

fn lexer(row: &Row) -> Lexer<'_> {
    let mut lexer = Lexer::new(&row.text);
    lexer.allow_confusing_unicode(row.of != "plain");
    lexer
}

/// Checks a new buffer: the number of its raw tokens, and its lexical error.
fn made(row: &Row, buffer: Result<ParseBuffer, Error>) -> Ending {
    let buffer = ended(buffer);
    let made = buffer.map(|buffer| (buffer.raw().len(), buffer.lex_fault()));
    row.ending(&made)
}

/// Blanks the second raw token of the text, which is a comment.
fn blanked(row: &Row) -> Result<Ending, Error> {
    let buffer = ParseBuffer::new_with_lexer(Global, lexer(row))?;
    let other = ended(laws::blanked(Global, &row.text, &buffer.raw()[1]));
    Ok(row.ending(&other.map_err(Error::from)))
}

/// Checks the getters of a buffer with two raw tokens and a lexical error, and those of its parser.
fn asked(row: &Row) -> Result<Ending, Error> {
    let buffer = row.source.buffer_with_lexer(lexer(row))?;
    let parser = buffer.parser();
    let _lookahead = parser.lookahead1();
    let read = (buffer.raw().count(), buffer.lex_fault().is_some());
    let place = (parser.prev_span().offset(), parser.parens_depth());
    let answers = (parser.has_meaningful_tokens(), parser.track_instr_spans());
    let is_shallow = ended(parser.depth_check().is_ok());
    assert_eq!(
        (read, place, answers, is_shallow),
        ((2, true), (0, 0), (true, false), true)
    );
    Ok(Ending::Answer)
}

/// Checks a buffer that tracks the spans of instructions.
fn tracked(row: &Row) -> Result<Ending, Error> {
    let mut buffer = row.source.buffer(&row.text)?;
    buffer.track_instr_spans(true);
    assert!(ended(buffer.parser().track_instr_spans()), "{}", row.name);
    Ok(Ending::Answer)
}

/// Checks the getters of buffers without a token table, and those of their parsers. Neither the buffers nor the peeks allocate.
fn lazy(row: &Row) -> Ending {
    let mut buffer = LazyBuffer::new(Global, &row.text);
    let with_lexer = LazyBuffer::new_with_lexer(Global, lexer(row));
    buffer.track_instr_spans(true);
    let (parser, other) = (buffer.parser(), with_lexer.parser());
    let fault = with_lexer.lex_fault().map(|fault| fault.offset);
    let shown = (parser.is_empty(), parser.cur_span().offset());
    let counts = ended((parser.has_meaningful_tokens(), fault));
    assert_eq!(shown, (other.is_empty(), other.cur_span().offset()));
    assert_eq!(with_lexer.lexer().input(), row.text, "{}", row.name);
    row.ending(&Ok((shown, counts)))
}

pub fn ending(row: &Row) -> Result<Ending, Error> {
    match row.of {
        "plain" => Ok(made(row, ParseBuffer::new(Global, &row.text))),
        "with-lexer" => Ok(made(row, ParseBuffer::new_with_lexer(Global, lexer(row)))),
        "blanked" => blanked(row),
        "asked" => asked(row),
        "tracked" => tracked(row),
        "lazy" => Ok(lazy(row)),
        "compile" => Ok(row.ending(&ended(compile_types(Global, &row.text)))),
        of => panic!("{}: no {of}", row.name),
    }
}
