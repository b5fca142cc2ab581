use super::{Parser, Peek, Result};
use crate::{Error, proved};
use core::fmt;
use wat_lex::shim::alloc::Global;
use wat_lex::shim::smallvec::SmallVec;

/// A sequence of peeks at one token, whose error names each type that was tried.
#[derive(Debug)]
pub struct Lookahead1<'a> {
    parser: Parser<'a>,
    attempts: SmallVec<&'static str, 8>,
}

impl<'a> Lookahead1<'a> {
    pub(super) fn new(parser: Parser<'a>) -> Lookahead1<'a> {
        Lookahead1 {
            parser,
            attempts: SmallVec::new(Global),
        }
    }

    /// Returns `true` if the next token is one with which the type begins. Otherwise records the type for the error message.
    ///
    /// # Errors
    ///
    /// Returns an error if lexing the next token fails, or if an allocation fails.
    pub fn peek<T: Peek>(&mut self) -> Result<bool> {
        if self.parser.peek::<T>()? {
            return Ok(true);
        }
        let kept = self.attempts.push(T::display());
        kept.map_err(proved::Error::from)?;
        Ok(false)
    }

    /// Returns the parser.
    #[must_use]
    pub fn parser(&self) -> Parser<'a> {
        self.parser
    }

    /// Creates an error at the next token that names the types that were tried.
    #[must_use]
    pub fn error(self) -> Error {
        self.parser.error(Expected(&self))
    }
}

/// The error message of a [`Lookahead1`].
struct Expected<'l, 'a>(&'l Lookahead1<'a>);

impl fmt::Display for Expected<'_, '_> {
    fn fmt(&self, f: &mut fmt::Formatter<'_>) -> fmt::Result {
        match self.0.attempts.as_slice() {
            [] if self.0.parser.is_empty() => f.write_str("unexpected end of input"),
            [] => f.write_str("unexpected token"),
            [only] => write!(f, "unexpected token, expected {only}"),
            [first, second] => write!(f, "unexpected token, expected {first} or {second}"),
            [first, others @ ..] => {
                write!(f, "unexpected token, expected one of: {first}")?;
                others.iter().try_for_each(|other| write!(f, ", {other}"))
            }
        }
    }
}
