//! Implementations of `Eq`, `Hash` and `Default` for verified types, for generic code of users. The verified code does not use them.

use crate::proved::lexer::Settings;
use crate::{FloatKind, Integer, IntegerKind, LexError, SignToken, TokenKind};
use core::hash::{Hash, Hasher};
use core::mem::discriminant;

impl Eq for TokenKind {}

impl Hash for TokenKind {
    fn hash<H: Hasher>(&self, state: &mut H) {
        discriminant(self).hash(state);
        match self {
            TokenKind::Integer(kind) => kind.hash(state),
            TokenKind::Float(kind) => kind.hash(state),
            _ => {}
        }
    }
}

impl Eq for IntegerKind {}

impl Hash for IntegerKind {
    fn hash<H: Hasher>(&self, state: &mut H) {
        (self.sign(), self.has_underscores(), self.hex()).hash(state);
    }
}

impl Eq for FloatKind {}

impl Hash for FloatKind {
    fn hash<H: Hasher>(&self, state: &mut H) {
        discriminant(self).hash(state);
        match *self {
            FloatKind::Inf { negative } | FloatKind::Nan { negative } => negative.hash(state),
            FloatKind::NanVal {
                negative,
                has_underscores,
            } => (negative, has_underscores).hash(state),
            FloatKind::Normal {
                has_underscores,
                hex,
            } => (has_underscores, hex).hash(state),
        }
    }
}

impl Hash for SignToken {
    fn hash<H: Hasher>(&self, state: &mut H) {
        discriminant(self).hash(state);
    }
}

impl Eq for Integer<'_> {}

impl Hash for Integer<'_> {
    fn hash<H: Hasher>(&self, state: &mut H) {
        (self.sign(), self.val()).hash(state);
    }
}

impl Hash for LexError {
    fn hash<H: Hasher>(&self, state: &mut H) {
        discriminant(self).hash(state);
        match *self {
            LexError::Unexpected(c)
            | LexError::InvalidStringElement(c)
            | LexError::InvalidStringEscape(c)
            | LexError::InvalidHexDigit(c)
            | LexError::InvalidDigit(c)
            | LexError::ConfusingUnicode(c) => c.hash(state),
            LexError::Expected { wanted, found } => (wanted, found).hash(state),
            LexError::InvalidUnicodeValue(number) => number.hash(state),
            _ => {}
        }
    }
}

/// Both settings are off.
impl Default for Settings {
    fn default() -> Settings {
        Settings {
            allow: false,
            strict: false,
        }
    }
}
