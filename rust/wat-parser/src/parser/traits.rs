use super::{Cursor, Parser, Result};
use alloc::boxed::Box;

/// A type that can be parsed from tokens.
///
/// By convention `parse` reads the contents of a group; the caller consumes the parentheses with [`Parser::parens`].
///
/// # Examples
///
/// ```
/// use wat_parser::custom_keyword;
/// use wat_parser::parser::{self, Parse, ParseBuffer, Parser, Result};
///
/// custom_keyword!(point);
///
/// struct Point {
///     x: i32,
///     y: i32,
/// }
///
/// impl<'a> Parse<'a> for Point {
///     fn parse(parser: Parser<'a>) -> Result<Self> {
///         parser.parse::<point>()?;
///         Ok(Point {
///             x: parser.parse()?,
///             y: parser.parse()?,
///         })
///     }
/// }
///
/// # fn main() -> Result<()> {
/// let buffer = ParseBuffer::new("point 3 -4")?;
/// let Point { x, y } = parser::parse(&buffer)?;
/// assert_eq!((x, y), (3, -4));
/// # Ok(())
/// # }
/// ```
pub trait Parse<'a>: Sized {
    /// Parses a value and advances the parser past it.
    ///
    /// # Errors
    ///
    /// Returns an error at the first token that does not fit, if the next tokens are not a value of this type. The parser may have advanced by then.
    fn parse(parser: Parser<'a>) -> Result<Self>;
}

impl<'a, T: Parse<'a>> Parse<'a> for Box<T> {
    fn parse(parser: Parser<'a>) -> Result<Self> {
        T::parse(parser).map(Box::new)
    }
}

/// Parses a value if a peek recognizes the type, and returns `None` otherwise.
impl<'a, T: Parse<'a> + Peek> Parse<'a> for Option<T> {
    fn parse(parser: Parser<'a>) -> Result<Self> {
        if T::peek(parser.cursor())? {
            T::parse(parser).map(Some)
        } else {
            Ok(None)
        }
    }
}

/// A type that is recognized by its first token.
pub trait Peek {
    /// Returns `true` if the next token is one with which the type begins.
    ///
    /// # Errors
    ///
    /// Returns an error if lexing the next token fails.
    fn peek(cursor: Cursor<'_>) -> Result<bool>;

    /// Returns `true` if the token after the next one is one with which the type begins.
    ///
    /// # Errors
    ///
    /// Returns an error if lexing one of the next 2 tokens fails.
    fn peek2(cursor: Cursor<'_>) -> Result<bool> {
        match cursor.past_any()? {
            Some(rest) => Self::peek(rest),
            None => Ok(false),
        }
    }

    /// Returns the name of the type for error messages.
    fn display() -> &'static str;
}
