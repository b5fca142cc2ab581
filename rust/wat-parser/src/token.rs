//! Types of tokens that implement `Parse`: identifiers, indices, numbers, strings and parentheses.

mod float;

pub use float::{F32, F64};
pub use wat_lex::Span;

use crate::annotation;
use crate::parser::{Cursor, Parse, Parser, Peek, Result};
use crate::proved::token::integers::{signed_value, unsigned_value};
use alloc::borrow::ToOwned;
use alloc::string::String;
use core::fmt;
use core::hash::{Hash, Hasher};
use core::str;

/// Defines the methods of `Peek` of a type whose first token a method of the cursor recognizes.
macro_rules! peek_by {
    ($see:ident, $display:expr) => {
        #[inline]
        fn peek(cursor: Cursor<'_>) -> Result<bool> {
            cursor.$see()
        }

        fn display() -> &'static str {
            $display
        }
    };
}

/// An identifier: `$` and a name in a text, or one that [`gensym`](crate::gensym) generated.
///
/// Two identifiers are equal if their names and generations are equal. Their offsets are ignored.
#[derive(Clone, Copy)]
pub struct Id<'a> {
    name: &'a str,
    /// Index of a generated identifier, from 1, or 0 for an identifier in a text.
    pub(crate) generation: u32,
    span: Span,
}

impl<'a> Id<'a> {
    /// Creates an identifier of a text from its name, without `$`.
    #[must_use]
    pub fn new(name: &'a str, span: Span) -> Id<'a> {
        Id {
            name,
            generation: 0,
            span,
        }
    }

    /// Returns the name, without `$`.
    #[must_use]
    pub fn name(&self) -> &'a str {
        self.name
    }

    /// Returns the offset of the identifier.
    #[must_use]
    pub fn span(&self) -> Span {
        self.span
    }

    /// Returns `true` if the identifier was generated and is not part of a text.
    #[must_use]
    pub fn is_gensym(&self) -> bool {
        self.generation != 0
    }
}

impl PartialEq for Id<'_> {
    fn eq(&self, other: &Id<'_>) -> bool {
        (self.name, self.generation) == (other.name, other.generation)
    }
}

impl Eq for Id<'_> {}

impl Hash for Id<'_> {
    fn hash<H: Hasher>(&self, state: &mut H) {
        (self.name, self.generation).hash(state);
    }
}

impl fmt::Debug for Id<'_> {
    fn fmt(&self, f: &mut fmt::Formatter<'_>) -> fmt::Result {
        if !self.is_gensym() {
            return fmt::Debug::fmt(self.name, f);
        }
        let mut printed = f.debug_struct("Id");
        printed.field("generation", &self.generation).finish()
    }
}

impl<'a> Parse<'a> for Id<'a> {
    fn parse(parser: Parser<'a>) -> Result<Self> {
        parser.take("expected an identifier", |cursor| {
            let taken = cursor.id()?;
            Ok(taken.map(|(name, rest)| (Id::new(name, cursor.cur_span()), rest)))
        })
    }
}

impl Peek for Id<'_> {
    peek_by!(peek_id, "an identifier");
}

/// A reference to an item, by its index or its identifier.
///
/// Two references are equal if their indices or identifiers are equal. Their offsets are ignored.
#[derive(Clone, Copy, Debug)]
pub enum Index<'a> {
    /// The index of the item in its index space, and the offset of the token.
    Num(u32, Span),
    /// The identifier of the item.
    Id(Id<'a>),
}

impl Index<'_> {
    /// Returns the offset of the reference.
    #[must_use]
    pub fn span(&self) -> Span {
        match self {
            Index::Num(_, span) => *span,
            Index::Id(id) => id.span(),
        }
    }

    /// Returns `true` if the reference is an index.
    #[must_use]
    pub fn is_resolved(&self) -> bool {
        matches!(self, Index::Num(..))
    }
}

impl PartialEq for Index<'_> {
    fn eq(&self, other: &Index<'_>) -> bool {
        match (self, other) {
            (Index::Num(a, _), Index::Num(b, _)) => a == b,
            (Index::Id(a), Index::Id(b)) => a == b,
            _ => false,
        }
    }
}

impl Eq for Index<'_> {}

impl Hash for Index<'_> {
    fn hash<H: Hasher>(&self, state: &mut H) {
        match self {
            Index::Num(number, _) => (0u8, number).hash(state),
            Index::Id(id) => (1u8, id).hash(state),
        }
    }
}

impl<'a> From<Id<'a>> for Index<'a> {
    fn from(id: Id<'a>) -> Index<'a> {
        Index::Id(id)
    }
}

impl<'a> Parse<'a> for Index<'a> {
    fn parse(parser: Parser<'a>) -> Result<Self> {
        if parser.peek::<Id>()? {
            return parser.parse().map(Index::Id);
        }
        if !parser.peek::<u32>()? {
            return Err(parser.error("unexpected token, expected an index or an identifier"));
        }
        let (number, span) = parser.parse()?;
        Ok(Index::Num(number, span))
    }
}

impl Peek for Index<'_> {
    #[inline]
    fn peek(cursor: Cursor<'_>) -> Result<bool> {
        Ok(cursor.peek_integer()? || cursor.peek_id()?)
    }

    fn display() -> &'static str {
        "an index"
    }
}

/// A group of a keyword and an index: `(func $f)`.
#[derive(Clone, Debug)]
pub struct ItemRef<'a, K> {
    /// The keyword, which names the kind of the item.
    pub kind: K,
    /// The reference to the item.
    pub idx: Index<'a>,
}

impl<'a, K: Parse<'a>> Parse<'a> for ItemRef<'a, K> {
    fn parse(parser: Parser<'a>) -> Result<Self> {
        let (kind, idx) = parser.parens(|group| Ok((group.parse()?, group.parse()?)))?;
        Ok(ItemRef { kind, idx })
    }
}

/// Recognizes the `(` and the keyword.
impl<K: Peek> Peek for ItemRef<'_, K> {
    #[inline]
    fn peek(cursor: Cursor<'_>) -> Result<bool> {
        match cursor.lparen()? {
            Some(inside) => K::peek(inside),
            None => Ok(false),
        }
    }

    fn display() -> &'static str {
        "an item reference"
    }
}

/// The name that an annotation gives an item: `@name "x"`.
#[derive(Clone, Copy, Debug, PartialEq, Eq, Hash)]
pub struct NameAnnotation<'a> {
    /// The name.
    pub name: &'a str,
}

impl<'a> Parse<'a> for NameAnnotation<'a> {
    fn parse(parser: Parser<'a>) -> Result<Self> {
        parser.parse::<annotation::name>()?;
        let name = parser.parse()?;
        Ok(NameAnnotation { name })
    }
}

/// Parses the group with its parentheses. Returns `None` if the next group is another one, or if `name` is not registered.
impl<'a> Parse<'a> for Option<NameAnnotation<'a>> {
    fn parse(parser: Parser<'a>) -> Result<Self> {
        if parser.peek2::<annotation::name>()? {
            parser.parens(NameAnnotation::parse).map(Some)
        } else {
            Ok(None)
        }
    }
}

macro_rules! integers {
    ($($value:ident $more:literal: $($integer:ident)*;)*) => {
        $($(
            impl<'a> Parse<'a> for ($integer, Span) {
                fn parse(parser: Parser<'a>) -> Result<Self> {
                    parser.step(|cursor| {
                        let Some(((token, kind), rest)) = cursor.integer_token()? else {
                            return Err(cursor.error(concat!("expected a ", stringify!($integer))));
                        };
                        match $value(cursor.text(), &token, kind, $integer::MAX as u64 + $more) {
                            Some(value) => {
                                let span = Span::from_offset(token.offset);
                                Ok(((value as $integer, span), rest))
                            }
                            None => Err(cursor.error(concat!(
                                "invalid ",
                                stringify!($integer),
                                " number: constant out of range",
                            ))),
                        }
                    })
                }
            }

            impl<'a> Parse<'a> for $integer {
                #[inline]
                fn parse(parser: Parser<'a>) -> Result<Self> {
                    let (value, _) = parser.parse::<($integer, Span)>()?;
                    Ok(value)
                }
            }

            impl Peek for $integer {
                peek_by!(peek_integer, stringify!($integer));
            }
        )*)*
    };
}

// The bound of an unsigned type is its greatest value. That of a signed type is the number of its negative values, which is 1 more.
integers! {
    unsigned_value 0: u8 u16 u32 u64;
    signed_value 1: i8 i16 i32 i64;
}

/// Parses a string of arbitrary bytes.
impl<'a> Parse<'a> for &'a [u8] {
    fn parse(parser: Parser<'a>) -> Result<Self> {
        parser.take("expected a string", Cursor::string)
    }
}

impl Peek for &[u8] {
    peek_by!(peek_string, "string");
}

/// Parses a string that is UTF-8.
impl<'a> Parse<'a> for &'a str {
    fn parse(parser: Parser<'a>) -> Result<Self> {
        let bytes: &[u8] = parser.parse()?;
        str::from_utf8(bytes)
            .map_err(|_| parser.error_at(parser.prev_span(), "malformed UTF-8 encoding"))
    }
}

impl Peek for &str {
    peek_by!(peek_string, "string");
}

impl<'a> Parse<'a> for String {
    fn parse(parser: Parser<'a>) -> Result<Self> {
        parser.parse().map(str::to_owned)
    }
}

/// A type for a peek at a `(`.
#[derive(Debug)]
pub struct LParen {
    _private: (),
}

impl Peek for LParen {
    peek_by!(peek_lparen, "left paren");
}

/// A type for a peek at a `)`.
#[derive(Debug)]
pub struct RParen {
    _private: (),
}

impl Peek for RParen {
    peek_by!(peek_rparen, "right paren");
}
