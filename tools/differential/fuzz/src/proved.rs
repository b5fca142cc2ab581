//! The calls of the proved modules, without the layer over them, with results in the form of `answers.rs`.
use crate::report::Answers;
use std::fmt::Debug;
use wat_lex::proved::error::Error;
use wat_lex::proved::lexer::{LexError, LexFault, Lexer, Token, TokenKind};
use wat_lex::shim::alloc::Global;
use wat_lex::shim::borrow::{CowSlice, CowStr};
use wat_lex::shim::boxed::Box;
use wat_lex::shim::string::String as ProvedString;
use wat_parser::proved::kw;
use wat_parser::proved::parser::{LazyBuffer, Parse, ParseBuffer, Parser, parse};
use wat_parser::proved::token::{Id, Index, ItemRef};

pub fn lexer_of(text: &str, allow: bool) -> Lexer<'_> {
    let mut lexer = Lexer::new(text);
    lexer.allow_confusing_unicode(allow);
    lexer
}

/// Records the tokens of a text with their values, and the error that ends them. Checks that the lexer's four ways to find a token agree.
pub fn tokens(text: &str, allow: bool, answers: &mut Answers) {
    let (lexer, mut place) = (lexer_of(text, allow), 0);
    let mut items = lexer.iter(Global, 0);
    loop {
        if text.as_bytes().get(place) == Some(&b'@') {
            let found = lexer.annotation(Global, place).map(|found| found.is_some());
            answers.push(&format_args!("annotation {}", outcome(found)));
        }
        let scanned = lexer.scan(place);
        assert_eq!(
            scanned,
            lexer.scan_by_byte(place),
            "by blocks and by bytes: {text:?}"
        );
        let parsed = lexer.parse(Global, &mut place);
        let item = items.next().transpose();
        assert!(
            is_same(scanned, &parsed) && is_same(scanned, &item),
            "scan, parse and iter: {text:?}"
        );
        match parsed {
            Ok(Some(token)) => {
                answers.token(token.offset, token.len, &token.kind, &value(&token, text))
            }
            Ok(None) => return,
            Err(error) => return answers.fault(&fault(&error)),
        }
    }
}

/// Returns `true` if the token is the one that was scanned, or the error reports the scanned lexical error.
fn is_same(
    scanned: Result<Option<Token>, LexFault>,
    parsed: &Result<Option<Token>, Error>,
) -> bool {
    match (scanned, parsed) {
        (Ok(scanned), Ok(parsed)) => scanned == *parsed,
        (Err(fault), Err(error)) => {
            (Some(&fault.error), fault.offset) == (error.lex_error(), error.span().offset())
        }
        _ => false,
    }
}

fn value(token: &Token, text: &str) -> String {
    match token.kind {
        TokenKind::String => format!("{:?}", token.string(Global, text).expect("memory")),
        TokenKind::Id => outcome(token.id(Global, text)),
        TokenKind::Annotation => outcome(token.annotation(Global, text)),
        TokenKind::Integer(kind) => {
            let integer = token.integer(Global, text, kind).expect("memory");
            format!("{:?} {:?}", integer.val(), integer.sign())
        }
        TokenKind::Float(kind) => format!("{:?}", token.float(Global, text, kind).expect("memory")),
        _ => String::new(),
    }
}

pub fn outcome<T: Debug>(answer: Result<T, Error>) -> String {
    match answer {
        Ok(value) => format!("{value:?}"),
        Err(error) => fault(&error),
    }
}

pub fn fault(error: &Error) -> String {
    let offset = error.span().offset();
    let message = error.message(Global).expect("memory");
    match error.lex_error() {
        Some(LexError::InvalidUtf8Id) => format!("{offset} InvalidUtf8Id {message}\n{error}"),
        cause => format!("{offset} {cause:?} {message}\n{error}"),
    }
}

/// The two sources of a parser.
pub enum Source<'a> {
    Table(ParseBuffer<'a>),
    Text(LazyBuffer<'a>),
}

impl<'a> Source<'a> {
    /// Creates a table of the text's tokens.
    pub fn table(text: &'a str, allow: bool) -> Source<'a> {
        let lexer = lexer_of(text, allow);
        Source::Table(ParseBuffer::new_with_lexer(Global, lexer).expect("memory"))
    }

    /// Creates a source that lexes the text on demand.
    pub fn text(text: &'a str, allow: bool) -> Source<'a> {
        Source::Text(LazyBuffer::new_with_lexer(Global, lexer_of(text, allow)))
    }

    pub fn parser(&self) -> Parser<'_> {
        match self {
            Source::Table(buffer) => buffer.parser(),
            Source::Text(buffer) => buffer.parser(),
        }
    }

    pub fn lex_fault(&self) -> Option<LexFault> {
        match self {
            Source::Table(buffer) => buffer.lex_fault(),
            Source::Text(buffer) => buffer.lex_fault(),
        }
    }

    fn parse<'b, T: Parse<'b>>(&'b self) -> Result<T, Error> {
        match self {
            Source::Table(buffer) => parse::<T>(buffer),
            Source::Text(buffer) => buffer.parse::<T>(),
        }
    }

    fn read<'b, T: Parse<'b> + Debug>(&'b self) -> String {
        outcome(self.parse::<T>())
    }
}

/// The number of types whose proved form prints like that of `wast`.
pub const TYPES: usize = 17;

/// Parses the text as the type with this index, which must be below `TYPES`, and records the result.
pub fn typed(source: &Source, number: usize, answers: &mut Answers) {
    let read = match number {
        0 => source.read::<u8>(),
        1 => source.read::<u16>(),
        2 => source.read::<u32>(),
        3 => source.read::<u64>(),
        4 => source.read::<i8>(),
        5 => source.read::<i16>(),
        6 => source.read::<i32>(),
        7 => source.read::<i64>(),
        8 => source.read::<CowSlice<u8>>(),
        9 => source.read::<CowStr>(),
        10 => source.read::<ProvedString>(),
        11 => source.read::<Id>(),
        12 => source.read::<Index>(),
        13 => outcome(
            source
                .parse::<ItemRef<kw::func>>()
                .map(|item| (item.kind.span, item.idx)),
        ),
        14 => source.read::<Option<u32>>(),
        15 => source.read::<Box<u32>>(),
        _ => source.read::<Option<Id>>(),
    };
    answers.push(&format_args!("type {number}: {read}"));
}
