//! The two buffers of the verified parser: with a token table, and lexed on demand.

use std::iter::from_fn;
use wat_lex::proved::error::Error;
use wat_lex::proved::lexer::{LexFault, Lexer, Token};
use wat_lex::shim::alloc::Global;
use wat_parser::proved::parser::{LazyBuffer, Parse, ParseBuffer, Parser, parse};

#[derive(Clone, Copy, Debug, PartialEq, Eq)]
pub enum Source {
    Table,
    Text,
}

pub const SOURCES: [Source; 2] = [Source::Table, Source::Text];

pub enum Buffer<'a> {
    Table(ParseBuffer<'a>),
    Text(LazyBuffer<'a>),
}

impl Source {
    pub fn buffer(self, text: &str) -> Result<Buffer<'_>, Error> {
        Ok(match self {
            Source::Table => Buffer::Table(ParseBuffer::new(Global, text)?),
            Source::Text => Buffer::Text(LazyBuffer::new(Global, text)),
        })
    }

    pub fn buffer_with_lexer(self, lexer: Lexer<'_>) -> Result<Buffer<'_>, Error> {
        Ok(match self {
            Source::Table => Buffer::Table(ParseBuffer::new_with_lexer(Global, lexer)?),
            Source::Text => Buffer::Text(LazyBuffer::new_with_lexer(Global, lexer)),
        })
    }
}

impl Buffer<'_> {
    pub fn parser(&self) -> Parser<'_> {
        match self {
            Buffer::Table(buffer) => buffer.parser(),
            Buffer::Text(buffer) => buffer.parser(),
        }
    }

    /// Parses the whole text.
    pub fn parse<'b, T: Parse<'b>>(&'b self) -> Result<T, Error> {
        match self {
            Buffer::Table(buffer) => parse::<T>(buffer),
            Buffer::Text(buffer) => buffer.parse::<T>(),
        }
    }

    /// Returns the raw tokens, up to the end of the text or the first lexical error.
    pub fn raw(&self) -> impl Iterator<Item = Token> {
        let (mut number, mut at) = (0, 0);
        from_fn(move || {
            let token = match self {
                Buffer::Table(buffer) => *buffer.raw().get(number)?,
                Buffer::Text(buffer) => buffer.lexer().scan(at).ok()??,
            };
            number += 1;
            at = token.offset + token.len as usize;
            Some(token)
        })
    }

    pub fn lex_fault(&self) -> Option<LexFault> {
        match self {
            Buffer::Table(buffer) => buffer.lex_fault(),
            Buffer::Text(buffer) => buffer.lex_fault(),
        }
    }

    pub fn track_instr_spans(&mut self, track: bool) -> &mut Self {
        match self {
            Buffer::Table(buffer) => {
                buffer.track_instr_spans(track);
            }
            Buffer::Text(buffer) => {
                buffer.track_instr_spans(track);
            }
        }
        self
    }
}
