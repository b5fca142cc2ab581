use crate::error::Error;
use crate::proved;
use crate::shim::alloc::{Global, granted};
use crate::{Float, FloatKind, Integer, IntegerKind, TokenKind};
use alloc::borrow::Cow;
use core::ops::Range;

/// A token of a source text: its kind and its bytes.
#[derive(Clone, Copy, Debug, PartialEq, Eq, Hash)]
pub struct Token {
    /// Kind of the token.
    pub kind: TokenKind,
    /// Byte offset of the token in the text.
    pub offset: usize,
    /// Length in bytes.
    pub len: u32,
}

impl From<proved::lexer::Token> for Token {
    #[inline]
    fn from(token: proved::lexer::Token) -> Token {
        let proved::lexer::Token { kind, offset, len } = token;
        Token { kind, offset, len }
    }
}

impl Token {
    /// Returns the byte offset of the token's end.
    ///
    /// ```
    /// let token = wat_lex::Lexer::new("(func)").parse(&mut 1)?.unwrap();
    /// assert_eq!((token.end(), token.range()), (5, 1..5));
    /// # Ok::<(), wat_lex::Error>(())
    /// ```
    #[must_use]
    #[inline]
    pub fn end(&self) -> usize {
        self.offset + self.len as usize
    }

    /// Returns the byte range of the token in the text.
    #[must_use]
    #[inline]
    pub fn range(&self) -> Range<usize> {
        self.offset..self.end()
    }

    /// Returns the source of the token, a slice of `s`. `s` must be the text that the token was lexed from.
    ///
    /// # Panics
    ///
    /// Panics if `s` is too short for the token, or if one of the token's ends is not a char boundary of `s`.
    #[must_use]
    #[inline]
    pub fn src<'a>(&self, s: &'a str) -> &'a str {
        &s[self.offset..][..self.len as usize]
    }

    /// Returns the lexeme of a keyword. `s` must be the text that the token was lexed from.
    ///
    /// # Panics
    ///
    /// Panics if `s` is too short for the token, or if one of the token's ends is not a char boundary of `s`.
    #[must_use]
    #[inline]
    pub fn keyword<'a>(&self, s: &'a str) -> &'a str {
        self.src(s)
    }

    /// Returns the lexeme of a reserved token. `s` must be the text that the token was lexed from.
    ///
    /// # Panics
    ///
    /// Panics if `s` is too short for the token, or if one of the token's ends is not a char boundary of `s`.
    #[must_use]
    #[inline]
    pub fn reserved<'a>(&self, s: &'a str) -> &'a str {
        self.src(s)
    }

    /// Returns the value of a string. It is borrowed if the string has no escape.
    ///
    /// # Panics
    ///
    /// Panics if the token is not a string. With a token from a different text it may panic or return an unrelated value.
    #[must_use]
    #[inline]
    pub fn string<'a>(&self, s: &'a str) -> Cow<'a, [u8]> {
        let token = self.readable(TokenKind::String);
        granted(token.string(Global, s)).into()
    }

    /// Returns the name of an identifier, without its `$`. It is borrowed if the name has no escape.
    ///
    /// # Errors
    ///
    /// Returns an error if the name is empty or not UTF-8, or if an allocation fails.
    ///
    /// # Panics
    ///
    /// Panics if the token is not an identifier. With a token from a different text it may panic or return an unrelated value.
    #[inline]
    pub fn id<'a>(&self, s: &'a str) -> Result<Cow<'a, str>, Error> {
        let name = self.readable(TokenKind::Id).id(Global, s)?;
        Ok(name.into())
    }

    /// Returns the name of an annotation, without its `@`. It is borrowed if the name has no escape.
    ///
    /// # Errors
    ///
    /// Returns an error if the name is empty or not UTF-8, or if an allocation fails.
    ///
    /// # Panics
    ///
    /// Panics if the token is not an annotation. With a token from a different text it may panic or return an unrelated value.
    #[inline]
    pub fn annotation<'a>(&self, s: &'a str) -> Result<Cow<'a, str>, Error> {
        let token = self.readable(TokenKind::Annotation);
        Ok(token.annotation(Global, s)?.into())
    }

    /// Returns the sign and the digits of an integer.
    ///
    /// # Panics
    ///
    /// Panics if the token is not an integer of this kind. With a token from a different text it may panic or return an unrelated value.
    #[must_use]
    #[inline]
    pub fn integer<'a>(&self, s: &'a str, kind: IntegerKind) -> Integer<'a> {
        let token = self.readable(TokenKind::Integer(kind));
        granted(token.integer(Global, s, kind))
    }

    /// Returns the parts of a floating-point number.
    ///
    /// # Panics
    ///
    /// Panics if the token is not a floating-point number of this kind. With a token from a different text it may panic or return an unrelated value.
    #[must_use]
    #[inline]
    pub fn float<'a>(&self, s: &'a str, kind: FloatKind) -> Float<'a> {
        let token = self.readable(TokenKind::Float(kind));
        granted(token.float(Global, s, kind)).into()
    }

    /// Checks the kind and converts the token for the verified accessors. Their preconditions hold if the lexer found the token in the text; they are
    /// not checked again, so a token from a different text may panic or yield an unrelated value.
    #[inline]
    fn readable(&self, kind: TokenKind) -> proved::lexer::Token {
        if self.kind != kind {
            refuse(kind);
        }
        let Token { kind, offset, len } = *self;
        proved::lexer::Token { offset, len, kind }
    }
}

#[cold]
fn refuse(kind: TokenKind) -> ! {
    panic!("the token is no {} of this kind", kind.name())
}

impl TokenKind {
    /// Returns the name of the kind. For numbers the name has neither sign nor radix.
    #[must_use]
    pub fn name(self) -> &'static str {
        match self {
            TokenKind::LineComment => "LineComment",
            TokenKind::BlockComment => "BlockComment",
            TokenKind::Whitespace => "Whitespace",
            TokenKind::LParen => "LParen",
            TokenKind::RParen => "RParen",
            TokenKind::String => "String",
            TokenKind::Id => "Id",
            TokenKind::Keyword => "Keyword",
            TokenKind::Annotation => "Annotation",
            TokenKind::Reserved => "Reserved",
            TokenKind::Integer(_) => "Integer",
            TokenKind::Float(_) => "Float",
        }
    }
}
