//! Parsers for custom types: a type is parsed by its [`Parse`] and recognized by its [`Peek`].
//!
//! A [`ParseBuffer`] holds a source text. [`parse`] parses a whole text as a value of a type, and passes a [`Parser`] to the [`Parse`] of each type
//! involved. The next token of a parser is the first visible token after those that it consumed. Every token is visible, except whitespace, comments,
//! and tokens in the group of an annotation whose name is not registered.

mod annotations;
mod buffer;
mod cursor;
mod lookahead;
mod strings;
mod traits;

pub use buffer::ParseBuffer;
pub use cursor::Cursor;
pub use lookahead::Lookahead1;
pub use traits::{Parse, Peek};

use crate::Error;
use crate::proved;
use crate::proved::lexer::Token;
use crate::token::Span;
use core::fmt;
use wat_lex::TokenKind;
use wat_lex::shim::alloc::{AllocError, Global};
use wat_lex::shim::string::ToStringIn;

/// The maximum number of open groups that [`Parser::depth_check`] accepts.
pub const MAX_PARENS_DEPTH: usize = proved::parser::MAX_PARENS_DEPTH;

/// The result of a parse.
pub type Result<T, E = Error> = core::result::Result<T, E>;

/// Parses a whole text as a value.
///
/// # Errors
///
/// Returns an error if the text does not begin with a value of the type, if a token is left after the value, or if there is a lexical error.
///
/// # Examples
///
/// ```
/// use wat_parser::parser::{self, ParseBuffer, Result};
///
/// # fn main() -> Result<()> {
/// let buffer = ParseBuffer::new("0x10 ;; sixteen")?;
/// assert_eq!(parser::parse::<u32>(&buffer)?, 16);
///
/// let buffer = ParseBuffer::new("16 17")?;
/// let error = parser::parse::<u32>(&buffer).unwrap_err();
/// assert_eq!(error.message(), "extra tokens remaining after parse");
/// assert_eq!(error.span().offset(), 3);
/// # Ok(())
/// # }
/// ```
pub fn parse<'a, T: Parse<'a>>(buffer: &'a ParseBuffer<'a>) -> Result<T> {
    let parser = Parser { buffer };
    let value = parser.parse()?;
    if parser.cursor().with_next(false, |_| true)? {
        return Err(parser.error("extra tokens remaining after parse"));
    }
    Ok(value)
}

/// A parser of a [`ParseBuffer`], which is passed to each [`Parse`]. All copies share one position: if one advances, all do.
#[derive(Clone, Copy, Debug)]
pub struct Parser<'a> {
    buffer: &'a ParseBuffer<'a>,
}

impl<'a> Parser<'a> {
    /// Returns `true` if no token is left in the current group or in the text: the next token is a `)`, or the text ends. Returns `false` if lexing
    /// the next token fails.
    ///
    /// # Examples
    ///
    /// ```
    /// use wat_parser::parser::{self, Parse, ParseBuffer, Parser, Result};
    /// // Any number of numbers.
    /// struct Numbers(Vec<u32>);
    ///
    /// impl<'a> Parse<'a> for Numbers {
    ///     fn parse(parser: Parser<'a>) -> Result<Self> {
    ///         let mut numbers = Vec::new();
    ///         while !parser.is_empty() {
    ///             numbers.push(parser.parse()?);
    ///         }
    ///         Ok(Numbers(numbers))
    ///     }
    /// }
    ///
    /// # fn main() -> Result<()> {
    /// let buffer = ParseBuffer::new("1 (; and ;) 2")?;
    /// assert_eq!(parser::parse::<Numbers>(&buffer)?.0, [1, 2]);
    /// # Ok(())
    /// # }
    /// ```
    #[must_use]
    #[inline]
    pub fn is_empty(self) -> bool {
        let (row, known) = self.buffer.row_at(self.buffer.position.get());
        if known {
            return matches!(row.kind, TokenKind::RParen);
        }
        let is_close = |next: Token| matches!(next.kind, TokenKind::RParen);
        let next = self.cursor().look();
        next.is_ok_and(|next| next.is_none_or(is_close))
    }

    /// Returns `true` if the text has a significant token or a lexical error.
    ///
    /// # Examples
    ///
    /// ```
    /// use wat_parser::parser::{self, Parse, ParseBuffer, Parser, Result};
    /// // A number, or a text with comments only.
    /// struct Perhaps(Option<u32>);
    ///
    /// impl<'a> Parse<'a> for Perhaps {
    ///     fn parse(parser: Parser<'a>) -> Result<Self> {
    ///         if !parser.has_meaningful_tokens() {
    ///             return Ok(Perhaps(None));
    ///         }
    ///         parser.parse().map(|number| Perhaps(Some(number)))
    ///     }
    /// }
    ///
    /// # fn main() -> Result<()> {
    /// let buffer = ParseBuffer::new(" ;; nothing yet")?;
    /// assert_eq!(parser::parse::<Perhaps>(&buffer)?.0, None);
    /// # Ok(())
    /// # }
    /// ```
    #[must_use]
    pub fn has_meaningful_tokens(self) -> bool {
        self.buffer.text_from(0).is_meaningful()
    }

    /// Parses a value with its [`Parse`] implementation.
    ///
    /// # Errors
    ///
    /// Returns the error of [`Parse::parse`] of the type.
    ///
    /// # Examples
    ///
    /// ```
    /// use wat_parser::parser::{self, Parse, ParseBuffer, Parser, Result};
    /// use wat_parser::token::Id;
    /// struct Named<'a>(Id<'a>, u32);
    ///
    /// impl<'a> Parse<'a> for Named<'a> {
    ///     fn parse(parser: Parser<'a>) -> Result<Self> {
    ///         let name = parser.parse::<Id>()?;
    ///         Ok(Named(name, parser.parse()?))
    ///     }
    /// }
    ///
    /// # fn main() -> Result<()> {
    /// let buffer = ParseBuffer::new("$x 0xff")?;
    /// let Named(name, number) = parser::parse(&buffer)?;
    /// assert_eq!((name.name(), number), ("x", 255));
    /// # Ok(())
    /// # }
    /// ```
    pub fn parse<T: Parse<'a>>(self) -> Result<T> {
        T::parse(self)
    }

    /// Returns `true` if the next token is one with which the type begins.
    ///
    /// # Errors
    ///
    /// Returns an error if lexing the next token fails.
    ///
    /// # Examples
    ///
    /// ```
    /// use wat_parser::parser::{self, Parse, ParseBuffer, Parser, Result};
    ///
    /// struct Limits {
    ///     min: u32,
    ///     max: Option<u32>,
    /// }
    ///
    /// impl<'a> Parse<'a> for Limits {
    ///     fn parse(parser: Parser<'a>) -> Result<Self> {
    ///         let min = parser.parse()?;
    ///         let max = if parser.peek::<u32>()? {
    ///             Some(parser.parse()?)
    ///         } else {
    ///             None
    ///         };
    ///         Ok(Limits { min, max })
    ///     }
    /// }
    ///
    /// # fn main() -> Result<()> {
    /// let buffer = ParseBuffer::new("1 16")?;
    /// let limits: Limits = parser::parse(&buffer)?;
    /// assert_eq!((limits.min, limits.max), (1, Some(16)));
    /// # Ok(())
    /// # }
    /// ```
    pub fn peek<T: Peek>(self) -> Result<bool> {
        T::peek(self.cursor())
    }

    /// Returns `true` if the token after the next one is one with which the type begins.
    ///
    /// # Errors
    ///
    /// Returns an error if lexing one of the next 2 tokens fails.
    ///
    /// # Examples
    ///
    /// ```
    /// use wat_parser::kw;
    /// use wat_parser::parser::{self, Parse, ParseBuffer, Parser, Result};
    /// // A number, optionally after `(mut)`.
    /// struct Value(bool, u32);
    ///
    /// impl<'a> Parse<'a> for Value {
    ///     fn parse(parser: Parser<'a>) -> Result<Self> {
    ///         let is_mut = parser.peek2::<kw::r#mut>()?;
    ///         if is_mut {
    ///             parser.parens(|group| group.parse::<kw::r#mut>())?;
    ///         }
    ///         Ok(Value(is_mut, parser.parse()?))
    ///     }
    /// }
    ///
    /// # fn main() -> Result<()> {
    /// let buffer = ParseBuffer::new("(mut) 7")?;
    /// let Value(is_mut, number) = parser::parse(&buffer)?;
    /// assert_eq!((is_mut, number), (true, 7));
    /// # Ok(())
    /// # }
    /// ```
    pub fn peek2<T: Peek>(self) -> Result<bool> {
        T::peek2(self.cursor())
    }

    /// Returns `true` if the third of the next tokens is one with which the type begins.
    ///
    /// # Errors
    ///
    /// Returns an error if lexing one of the next 3 tokens fails.
    ///
    /// # Examples
    ///
    /// ```
    /// use wat_parser::parser::{self, Parse, ParseBuffer, Parser, Result};
    /// use wat_parser::token::RParen;
    /// // `true` if a group of one token comes next.
    /// struct IsSingle(bool);
    ///
    /// impl<'a> Parse<'a> for IsSingle {
    ///     fn parse(parser: Parser<'a>) -> Result<Self> {
    ///         let is_single = parser.peek3::<RParen>()?;
    ///         parser.parens(|group| {
    ///             while !group.is_empty() {
    ///                 group.parse::<u32>()?;
    ///             }
    ///             Ok(IsSingle(is_single))
    ///         })
    ///     }
    /// }
    ///
    /// # fn main() -> Result<()> {
    /// for (text, is_single) in [("(1)", true), ("(1 2)", false)] {
    ///     let buffer = ParseBuffer::new(text)?;
    ///     assert_eq!(parser::parse::<IsSingle>(&buffer)?.0, is_single);
    /// }
    /// # Ok(())
    /// # }
    /// ```
    pub fn peek3<T: Peek>(self) -> Result<bool> {
        let Some(second) = self.cursor().past_any()? else {
            return Ok(false);
        };
        match second.past_any()? {
            Some(third) => T::peek(third),
            None => Ok(false),
        }
    }

    /// Returns a sequence of peeks at the next token, whose error names each type that was tried.
    ///
    /// # Examples
    ///
    /// ```
    /// use wat_parser::parser::{self, Parse, ParseBuffer, Parser, Result};
    /// use wat_parser::token::Id;
    ///
    /// #[derive(Debug)]
    /// enum Target<'a> {
    ///     Number(u32),
    ///     Name(Id<'a>),
    /// }
    ///
    /// impl<'a> Parse<'a> for Target<'a> {
    ///     fn parse(parser: Parser<'a>) -> Result<Self> {
    ///         let mut look = parser.lookahead1();
    ///         if look.peek::<u32>()? {
    ///             parser.parse().map(Target::Number)
    ///         } else if look.peek::<Id>()? {
    ///             parser.parse().map(Target::Name)
    ///         } else {
    ///             Err(look.error())
    ///         }
    ///     }
    /// }
    ///
    /// # fn main() -> Result<()> {
    /// let buffer = ParseBuffer::new("\"seven\"")?;
    /// let error = parser::parse::<Target>(&buffer).unwrap_err();
    /// assert_eq!(error.message(), "unexpected token, expected u32 or an identifier");
    /// # Ok(())
    /// # }
    /// ```
    #[must_use]
    pub fn lookahead1(self) -> Lookahead1<'a> {
        Lookahead1::new(self)
    }

    /// Parses a group: consumes `(`, calls the function, and consumes `)`.
    ///
    /// # Errors
    ///
    /// Returns an error if one of the three fails. The position of the parser is restored then.
    ///
    /// # Panics
    ///
    /// Panics if the function does. If the panic is caught, the position stays inside the group, and [`parens_depth`](Parser::parens_depth) stays 1
    /// higher, as in `wast`.
    ///
    /// # Examples
    ///
    /// ```
    /// use wat_parser::parser::{self, Parse, ParseBuffer, Parser, Result};
    ///
    /// // Any number of groups, each of two numbers.
    /// struct Pairs(Vec<(u8, u8)>);
    ///
    /// impl<'a> Parse<'a> for Pairs {
    ///     fn parse(parser: Parser<'a>) -> Result<Self> {
    ///         let mut pairs = Vec::new();
    ///         while !parser.is_empty() {
    ///             pairs.push(parser.parens(|group| Ok((group.parse()?, group.parse()?)))?);
    ///         }
    ///         Ok(Pairs(pairs))
    ///     }
    /// }
    ///
    /// # fn main() -> Result<()> {
    /// let buffer = ParseBuffer::new("(1 2) (3 4)")?;
    /// assert_eq!(parser::parse::<Pairs>(&buffer)?.0, [(1, 2), (3, 4)]);
    /// # Ok(())
    /// # }
    /// ```
    pub fn parens<T>(self, inside: impl FnOnce(Parser<'a>) -> Result<T>) -> Result<T> {
        let depth = &self.buffer.depth;
        let before = self.buffer.position.get();
        depth.set(depth.get() + 1);
        let group = self.group(inside);
        depth.set(depth.get() - 1);
        if group.is_err() {
            self.buffer.position.set(before);
        }
        group
    }

    #[inline(always)]
    fn group<T>(self, inside: impl FnOnce(Parser<'a>) -> Result<T>) -> Result<T> {
        self.take("expected `(`", |cursor| {
            Ok(cursor.lparen()?.map(|rest| ((), rest)))
        })?;
        let value = inside(self)?;
        self.take("expected `)`", |cursor| {
            Ok(cursor.rparen()?.map(|rest| ((), rest)))
        })?;
        Ok(value)
    }

    /// Returns the number of groups that [`parens`](Parser::parens) has open.
    ///
    /// # Examples
    ///
    /// ```
    /// use wat_parser::parser::{self, Parse, ParseBuffer, Parser, Result};
    /// // The depth of the innermost of nested groups.
    /// struct Depth(usize);
    ///
    /// impl<'a> Parse<'a> for Depth {
    ///     fn parse(parser: Parser<'a>) -> Result<Self> {
    ///         if parser.is_empty() {
    ///             return Ok(Depth(parser.parens_depth()));
    ///         }
    ///         parser.parens(|group| group.parse())
    ///     }
    /// }
    ///
    /// # fn main() -> Result<()> {
    /// let buffer = ParseBuffer::new("((()))")?;
    /// assert_eq!(parser::parse::<Depth>(&buffer)?.0, 3);
    /// # Ok(())
    /// # }
    /// ```
    #[must_use]
    pub fn parens_depth(&self) -> usize {
        self.buffer.depth.get()
    }

    /// Checks the nesting depth, so that a recursive [`Parse`] does not overflow the stack.
    ///
    /// # Errors
    ///
    /// Returns an error if more than [`MAX_PARENS_DEPTH`] groups are open.
    ///
    /// # Examples
    ///
    /// ```
    /// use wat_parser::parser::{self, Parse, ParseBuffer, Parser, Result};
    /// // Groups in groups.
    /// struct Nested;
    ///
    /// impl<'a> Parse<'a> for Nested {
    ///     fn parse(parser: Parser<'a>) -> Result<Self> {
    ///         parser.depth_check()?;
    ///         while !parser.is_empty() {
    ///             parser.parens(|group| group.parse::<Nested>())?;
    ///         }
    ///         Ok(Nested)
    ///     }
    /// }
    ///
    /// # fn main() -> Result<()> {
    /// let deep = 2 * parser::MAX_PARENS_DEPTH;
    /// let text = "(".repeat(deep) + &")".repeat(deep);
    /// let buffer = ParseBuffer::new(&text)?;
    /// let error = parser::parse::<Nested>(&buffer).err().unwrap();
    /// assert_eq!(error.message(), "item nesting too deep");
    /// # Ok(())
    /// # }
    /// ```
    pub fn depth_check(&self) -> Result<()> {
        if self.parens_depth() > MAX_PARENS_DEPTH {
            return Err(self.error("item nesting too deep"));
        }
        Ok(())
    }

    #[inline(always)]
    fn cursor(self) -> Cursor<'a> {
        Cursor {
            parser: self,
            position: self.buffer.position.get(),
        }
    }

    /// Calls the function with a cursor at the parser's position, and advances the parser to the cursor that the function returns.
    ///
    /// # Errors
    ///
    /// Returns the error of the function. The parser does not move then.
    ///
    /// # Examples
    ///
    /// ```
    /// use wat_parser::parser::{self, Parse, ParseBuffer, Parser, Result};
    ///
    /// // Any keyword.
    /// struct Word<'a>(&'a str);
    ///
    /// impl<'a> Parse<'a> for Word<'a> {
    ///     fn parse(parser: Parser<'a>) -> Result<Self> {
    ///         parser.step(|cursor| match cursor.keyword()? {
    ///             Some((word, rest)) => Ok((Word(word), rest)),
    ///             None => Err(cursor.error("expected a word")),
    ///         })
    ///     }
    /// }
    ///
    /// # fn main() -> Result<()> {
    /// let buffer = ParseBuffer::new(" in-line ")?;
    /// assert_eq!(parser::parse::<Word>(&buffer)?.0, "in-line");
    /// # Ok(())
    /// # }
    /// ```
    #[inline(always)]
    pub fn step<F, T>(self, take: F) -> Result<T>
    where
        F: FnOnce(Cursor<'a>) -> Result<(T, Cursor<'a>)>,
    {
        let (value, cursor) = take(self.cursor())?;
        self.buffer.position.set(cursor.position);
        Ok(value)
    }

    /// Advances past what a function of a cursor consumes, and returns its value. Returns an error with the message `expected` at the next token if
    /// the function returns `None`.
    #[inline(always)]
    pub(crate) fn take<T>(
        self,
        expected: &'static str,
        take: impl FnOnce(Cursor<'a>) -> Result<Option<(T, Cursor<'a>)>>,
    ) -> Result<T> {
        self.step(|cursor| match take(cursor)? {
            Some(taken) => Ok(taken),
            None => Err(self.buffer.error_at(cursor.cur_span(), expected)),
        })
    }

    /// Consumes the token for which a method of the cursor returns this lexeme or name, and returns its offset.
    #[doc(hidden)]
    #[inline]
    pub fn this_token(
        self,
        word: &str,
        expected: &'static str,
        take: impl FnOnce(Cursor<'a>) -> Result<Option<(&'a str, Cursor<'a>)>>,
    ) -> Result<Span> {
        self.take(expected, |cursor| {
            let taken = take(cursor)?.filter(|(shown, _)| *shown == word);
            Ok(taken.map(|(_, rest)| (cursor.cur_span(), rest)))
        })
    }

    /// Creates an error at the next token.
    ///
    /// # Examples
    ///
    /// ```
    /// use wat_parser::parser::{self, Parse, ParseBuffer, Parser, Result};
    /// // A number less than 10.
    /// struct Digit(u32);
    ///
    /// impl<'a> Parse<'a> for Digit {
    ///     fn parse(parser: Parser<'a>) -> Result<Self> {
    ///         if !parser.peek::<u32>()? {
    ///             return Err(parser.error("expected a digit"));
    ///         }
    ///         let (number, span) = parser.parse()?;
    ///         if number < 10 {
    ///             return Ok(Digit(number));
    ///         }
    ///         Err(parser.error_at(span, format_args!("{number} is no digit")))
    ///     }
    /// }
    ///
    /// # fn main() -> Result<()> {
    /// for (text, message) in [("  a", "expected a digit"), ("  17", "17 is no digit")] {
    ///     let buffer = ParseBuffer::new(text)?;
    ///     let error = parser::parse::<Digit>(&buffer).err().unwrap();
    ///     assert_eq!((error.message().as_str(), error.span().offset()), (message, 2));
    /// }
    /// # Ok(())
    /// # }
    /// ```
    #[must_use]
    #[cold]
    pub fn error(self, message: impl fmt::Display) -> Error {
        self.cursor().error(message)
    }

    /// Creates an error at an offset of the text.
    ///
    /// # Examples
    ///
    /// See [`error`](Parser::error) for an example.
    #[must_use]
    #[cold]
    pub fn error_at(self, span: Span, message: impl fmt::Display) -> Error {
        match message.to_string_in(Global) {
            Ok(message) => proved::Error::parse(Global, span, self.cursor().text(), message).into(),
            Err(refused) => proved::Error::from(refused).into(),
        }
    }

    /// Returns the offset of the next token, or of the end of the text if no token is left. If lexing the next token fails, returns the end offset of
    /// the consumed tokens.
    ///
    /// # Examples
    ///
    /// ```
    /// use wat_parser::parser::{self, Parse, ParseBuffer, Parser, Result};
    /// // A number with its start and end offset.
    /// struct Spanned(u64, usize, usize);
    ///
    /// impl<'a> Parse<'a> for Spanned {
    ///     fn parse(parser: Parser<'a>) -> Result<Self> {
    ///         let start = parser.cur_span().offset();
    ///         let number = parser.parse()?;
    ///         Ok(Spanned(number, start, parser.prev_span().offset()))
    ///     }
    /// }
    ///
    /// # fn main() -> Result<()> {
    /// let buffer = ParseBuffer::new(" 1_000 ")?;
    /// let Spanned(number, start, end) = parser::parse(&buffer)?;
    /// assert_eq!((number, start, end), (1000, 1, 6));
    /// # Ok(())
    /// # }
    /// ```
    #[must_use]
    pub fn cur_span(&self) -> Span {
        self.cursor().cur_span()
    }

    /// Returns the end offset of the consumed tokens.
    ///
    /// # Examples
    ///
    /// See [`cur_span`](Parser::cur_span) for an example.
    #[must_use]
    pub fn prev_span(&self) -> Span {
        Span::from_offset(self.buffer.position.get().byte())
    }

    /// Returns the setting of [`ParseBuffer::track_instr_spans`].
    ///
    /// # Examples
    ///
    /// ```
    /// use wat_parser::parser::{self, Parse, ParseBuffer, Parser, Result};
    /// use wat_parser::token::Span;
    /// // A number, with its offset if offsets are tracked.
    /// struct Placed(u32, Option<Span>);
    ///
    /// impl<'a> Parse<'a> for Placed {
    ///     fn parse(parser: Parser<'a>) -> Result<Self> {
    ///         let span = parser.track_instr_spans().then(|| parser.cur_span());
    ///         Ok(Placed(parser.parse()?, span))
    ///     }
    /// }
    ///
    /// # fn main() -> Result<()> {
    /// let mut buffer = ParseBuffer::new(" 7")?;
    /// buffer.track_instr_spans(true);
    /// let Placed(number, span) = parser::parse(&buffer)?;
    /// assert_eq!((number, span), (7, Some(Span::from_offset(1))));
    /// # Ok(())
    /// # }
    /// ```
    #[must_use]
    pub fn track_instr_spans(&self) -> bool {
        self.buffer.track
    }
}

/// Converts an allocation failure to an out-of-memory error.
#[inline(always)]
pub(crate) fn unless_refused<T>(asked: Result<T, AllocError>) -> Result<T> {
    asked.map_err(|refused| proved::Error::from(refused).into())
}
