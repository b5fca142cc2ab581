//! Test cases of the lexer and of the accessors of its tokens.

use crate::refusing::ended;
use crate::row::{Ending, Row};
use wat_lex::proved::error::Error;
use wat_lex::proved::lexer::{Integer, Lexer, Token, TokenKind};
use wat_lex::shim::alloc::Global;

/// Lexes one token at the start of the text. If there is a lexical error, the position must be unchanged.
fn parse(row: &Row) -> Ending {
    let mut pos = 0;
    let result = ended(Lexer::new(&row.text).parse(Global, &mut pos));
    assert_eq!(pos, row.place, "{}", row.name);
    row.ending(&result)
}

/// Checks the lexical error after the tokens of the text. The iterator must end after it.
fn fault(row: &Row) -> Ending {
    let lexer = Lexer::new(&row.text);
    let mut tokens = lexer.iter(Global, 0);
    let fault = ended(tokens.find_map(Result::err));
    assert!(tokens.next().is_none(), "{}", row.name);
    row.refusal(&fault.expect("a fault"))
}

fn count(row: &Row) -> Ending {
    let count = ended(Lexer::new(&row.text).iter(Global, 0).count());
    row.ending(&Ok(count))
}

fn annotation(row: &Row) -> Ending {
    row.ending(&ended(Lexer::new(&row.text).annotation(Global, 0)))
}

/// Checks an annotation, and a keyword, which is not an annotation.
fn annotations(row: &Row) -> Ending {
    let lexer = Lexer::new("@a x");
    let (found, other) = ended((lexer.annotation(Global, 0), lexer.annotation(Global, 3)));
    assert!(
        matches!((found, other), (Ok(Some(_)), Ok(None))),
        "{}",
        row.name
    );
    Ending::Answer
}

fn scan(row: &Row) -> Ending {
    row.ending(&Ok(ended(Lexer::new(&row.text).scan(0))))
}

fn settings(row: &Row) -> Ending {
    let mut lexer = Lexer::new("ab");
    lexer.allow_confusing_unicode(true).strict_underscores(true);
    let (input, settings) = ended((lexer.input(), lexer.settings()));
    assert!(
        input == "ab" && settings.allow && settings.strict,
        "{}",
        row.name
    );
    Ending::Answer
}

fn first(row: &Row) -> Token {
    let first = Lexer::new(&row.text).scan(0);
    first.expect("no fault").expect("a token")
}

/// Calls the accessor of the first token that its kind determines.
fn read(row: &Row) -> Ending {
    let (token, text) = (first(row), row.text.as_str());
    match token.kind {
        TokenKind::String => row.ending(&ended(token.string(Global, text)).map_err(Error::from)),
        TokenKind::Id => row.ending(&ended(token.id(Global, text))),
        TokenKind::Annotation => row.ending(&ended(token.annotation(Global, text))),
        TokenKind::Integer(kind) => {
            let integer = ended(token.integer(Global, text, kind));
            let value = integer.as_ref().map(Integer::val);
            row.ending(&value.map_err(|refused| Error::from(*refused)))
        }
        TokenKind::Float(kind) => {
            row.ending(&ended(token.float(Global, text, kind)).map_err(Error::from))
        }
        TokenKind::Keyword => row.ending(&Ok(ended(token.keyword(text)))),
        TokenKind::Reserved => row.ending(&Ok(ended(token.reserved(text)))),
        _ => row.ending(&Ok(ended(token.src(text)))),
    }
}

/// Decodes the name of the first token. An invalid name is a value of the result; only an allocation failure is an error.
fn name(row: &Row) -> Ending {
    let name = ended(first(row).name(Global, &row.text));
    row.ending(&name.map_err(Error::from))
}

/// Checks `has_name` of the first token, with the name of the test case.
fn has_name(row: &Row) -> Ending {
    row.ending(&Ok(ended(first(row).has_name(&row.text, row.names))))
}

/// Checks `name_fault` of the first token.
fn name_fault(row: &Row) -> Ending {
    row.ending(&Ok(ended(first(row).name_fault(&row.text))))
}

pub fn ending(row: &Row) -> Ending {
    match row.of {
        "parse" => parse(row),
        "fault" => fault(row),
        "count" => count(row),
        "annotation" => annotation(row),
        "annotations" => annotations(row),
        "scan" => scan(row),
        "settings" => settings(row),
        "read" => read(row),
        "name" => name(row),
        "has-name" => has_name(row),
        "name-fault" => name_fault(row),
        of => panic!("{}: no {of}", row.name),
    }
}
