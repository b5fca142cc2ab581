//! The lexer of the crate `wat-lex`, re-exported. Its tokens include whitespace and comments.

pub use wat_lex::{
    Float, FloatKind, Integer, IntegerKind, LexError, Lexer, SignToken, Token, TokenKind, Tokens,
};
