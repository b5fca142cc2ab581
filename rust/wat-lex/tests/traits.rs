//! Traits of the public types that generic code requires, and the sizes of the types.

use std::collections::HashSet;
use std::error::Error as StdError;
use std::fmt::{Debug, Display};
use std::hash::{DefaultHasher, Hash, Hasher};
use std::mem::size_of;
use std::panic::{RefUnwindSafe, UnwindSafe};
use wat_lex::{
    Document, Error, Fault, Float, FloatKind, Integer, IntegerKind, LexError, Lexer, Piece, Pieces,
    SignToken, Span, Token, TokenKind, Tokens, proved,
};
use wat_lex::shim::alloc::Global;

fn is_shared<T: Send + Sync + Unpin + UnwindSafe + RefUnwindSafe + Debug>() {}

fn is_error<T: StdError + Display + Send + Sync + 'static>() {}

fn is_copied<T: Copy + PartialEq>() {}

#[test]
fn threads_may_share_all_of_them() {
    is_shared::<Error>();
    is_shared::<Float<'_>>();
    is_shared::<Integer<'_>>();
    is_shared::<LexError>();
    is_shared::<Lexer<'_>>();
    is_shared::<Span>();
    is_shared::<Token>();
    is_shared::<TokenKind>();
    is_shared::<Tokens<'_, '_>>();
    is_shared::<proved::error::Error>();
    is_shared::<Document>();
    is_shared::<Fault>();
    is_shared::<Pieces<'_>>();
}

#[test]
fn errors_are_errors() {
    is_error::<Error>();
    is_error::<LexError>();
    is_error::<proved::error::Error>();
    is_error::<Fault>();
    let read = |text| -> Result<(), Box<dyn StdError>> {
        Lexer::new(text).parse(&mut 0)?;
        Ok(())
    };
    assert!(read("(").is_ok());
    assert!(read("\"").is_err_and(|error| error.is::<Error>()));
}

#[test]
fn an_error_of_the_lexer_has_what_is_wrong_as_its_source() {
    let error = Lexer::new("\"\\q").parse(&mut 0).unwrap_err();
    let wrong = LexError::InvalidStringEscape('q');
    let source = |error: &dyn StdError| error.source().unwrap().downcast_ref().copied();
    assert_eq!(source(&error), Some(wrong));
    assert_eq!(
        source(&Lexer::new("\"\\q").fault_at(0).unwrap()),
        Some(wrong)
    );
    let lexer = proved::lexer::Lexer::new("\"\\q");
    let error = lexer.parse(Global, &mut 0).unwrap_err();
    assert_eq!(source(&error), Some(wrong));
    let error = Error::new(Span::from_offset(0), "another".to_string());
    assert!(error.source().is_none());
}

fn hash(of: impl Hash) -> u64 {
    let mut hasher = DefaultHasher::new();
    of.hash(&mut hasher);
    hasher.finish()
}

/// Checks that values are equal if and only if their hashes are.
fn is_key<T: Eq + Hash + Debug>(values: &[T]) {
    for (i, a) in values.iter().enumerate() {
        for (j, b) in values.iter().enumerate() {
            assert_eq!(a == b, hash(a) == hash(b), "{a:?} {b:?}");
            assert!(i != j || a == b, "{a:?}");
        }
    }
}

#[test]
fn kinds_tokens_and_faults_are_keys() {
    let text = "( ) ;;\n \"a\" $a a @a , 1 +1 -1 1_0 0x1 0x1_0 inf -inf nan -nan nan:0x1 -nan:0x1 nan:0x1_0 1.5 1_0.5 0x1.8 1";
    let tokens: Vec<Token> = Lexer::new(text).iter(0).map(Result::unwrap).collect();
    let kinds: Vec<TokenKind> = tokens.iter().map(|token| token.kind).collect();
    is_key(&tokens);
    is_key(&kinds);
    assert_eq!(kinds.iter().collect::<HashSet<_>>().len(), 25);
    let integers = tokens.iter().filter_map(|token| match token.kind {
        TokenKind::Integer(kind) => Some(token.integer(text, kind)),
        _ => None,
    });
    is_key::<Integer<'_>>(&integers.collect::<Vec<_>>());
    let floats = tokens.iter().filter_map(|token| match token.kind {
        TokenKind::Float(kind) => Some(token.float(text, kind)),
        _ => None,
    });
    is_key::<Float<'_>>(&floats.collect::<Vec<_>>());
    is_key(&[SignToken::Plus, SignToken::Minus]);
    let faults: Vec<Piece> = Lexer::new("é漢\"\\q\" \"\\u1\" \"\\u{d800}\" \"\u{202e}\" (;")
        .pieces(0)
        .unwrap()
        .collect();
    is_key(&faults);
    let errors = faults.iter().filter_map(|piece| piece.fault());
    let errors: Vec<LexError> = errors.map(|fault| fault.error).collect();
    is_key(&errors);
    assert_eq!(errors.iter().collect::<HashSet<_>>().len(), 7);
}

fn is_copied_key<T: Eq + Hash + Copy>() {}

#[test]
fn parts_of_kinds_are_keys_too() {
    is_copied_key::<IntegerKind>();
    is_copied_key::<FloatKind>();
    is_copied_key::<Span>();
}

#[test]
fn a_document_is_empty_at_first() {
    let document = Document::default();
    assert_eq!((document.text(), document.piece_count()), ("", 0));
    assert_eq!(document.line_count(), 1);
}

#[test]
fn tokens_are_copied() {
    is_copied::<Token>();
    is_copied::<TokenKind>();
    is_copied::<Span>();
    is_copied::<LexError>();
}

#[test]
fn what_a_loop_passes_on_is_small() {
    assert_eq!(size_of::<Error>(), size_of::<usize>());
    assert_eq!(size_of::<Token>(), size_of::<proved::lexer::Token>());
    assert_eq!(
        size_of::<Result<Option<Token>, Error>>(),
        size_of::<Token>()
    );
}
