//! Allocation-failure injection in the layer: a function that returns a `Result` returns an error, and any other aborts the program.

mod refusing;

use refusing::{granting, refusing, without_memory};
use std::env;
use std::process::Command;
use wat_lex::{Error, Lexer, Span, Token, TokenKind, proved};

fn first(text: &str) -> Token {
    Lexer::new(text).parse(&mut 0).unwrap().unwrap()
}

/// Calls a function with 0, 1, 2, .. successful allocations until no allocation fails, and returns the errors.
fn errors_of_refusals<T>(call: impl Fn() -> Result<T, Error>) -> Vec<Error> {
    let mut errors = Vec::new();
    loop {
        let granted = errors.len();
        let (answer, asked) = granting(granted, &call);
        if asked <= granted {
            return errors;
        }
        errors.push(answer.err().expect("a refused request is an error"));
    }
}

#[test]
fn a_refused_request_is_an_error_where_the_answer_has_one() {
    let fault = "(module) \"\\q\"";
    let calls: [&dyn Fn() -> Result<(), Error>; 5] = [
        &|| Lexer::new(fault).parse(&mut { 9 }).map(drop),
        &|| {
            Lexer::new(fault)
                .iter(9)
                .try_for_each(|item| item.map(drop))
        },
        &|| Lexer::new("@\"\\q\"").annotation(0).map(drop),
        &|| Token::id(&token(TokenKind::Id, 6), "$\"\\61\"").map(drop),
        &|| Token::annotation(&token(TokenKind::Annotation, 6), "@\"\\61\"").map(drop),
    ];
    for (number, call) in calls.iter().enumerate() {
        let errors = errors_of_refusals(call);
        assert!(!errors.is_empty(), "{number}");
        for error in errors {
            assert!(error.is_out_of_memory(), "{number}: {error}");
            assert_eq!(
                (error.span(), error.lex_error()),
                (Span::from_offset(0), None)
            );
            assert_eq!(
                (error.message(), error.to_string()),
                ("out of memory".to_string(), "out of memory".to_string())
            );
        }
    }
}

fn token(kind: TokenKind, len: u32) -> Token {
    let offset = 0;
    Token { kind, offset, len }
}

#[test]
fn an_error_is_out_of_memory_where_its_box_is_refused() {
    let message = "a message".to_string();
    let mut error = refusing(|| Error::new(Span::from_offset(3), message));
    assert!(error.is_out_of_memory());
    without_memory(|| error.set_text("a text"));
    error.set_path("a.wat".as_ref());
    assert_eq!(error.to_string(), "out of memory");
    assert!(!Error::new(Span::from_offset(3), String::new()).is_out_of_memory());
    assert!(Error::from(proved::error::Error::out_of_memory()).is_out_of_memory());
}

#[test]
fn what_is_plain_takes_no_memory() {
    let text = "(module $a \"b\" 1 +2 1.5 -inf nan) ;; c";
    let lexer = Lexer::new(text);
    let read = |token: Token| match token.kind {
        TokenKind::Id => token.id(text).unwrap().len(),
        TokenKind::String => token.string(text).len(),
        TokenKind::Integer(kind) => token.integer(text, kind).val().0.len(),
        TokenKind::Float(kind) => std::mem::size_of_val(&token.float(text, kind)),
        _ => token.src(text).len(),
    };
    let sum: usize = without_memory(|| lexer.iter(0).map(|token| read(token.unwrap())).sum());
    assert!(sum > text.len() / 2);
}

/// Calls a function that cannot return an error.
fn call(name: &str) {
    let mut error = Error::new(Span::from_offset(1), "a message".to_string());
    match name {
        "string" => drop(refusing(|| first("\"\\n\"").string("\"\\n\""))),
        "integer" => refusing(|| match first("0x1").kind {
            TokenKind::Integer(kind) => drop(first("0x1").integer("0x1", kind)),
            _ => unreachable!("an integer"),
        }),
        "float" => refusing(|| match first("1_0.5").kind {
            TokenKind::Float(kind) => drop(first("1_0.5").float("1_0.5", kind)),
            _ => unreachable!("a float"),
        }),
        "message" => drop(refusing(|| error.message())),
        "set_text" => refusing(|| error.set_text("a text")),
        _ => unreachable!("{name}"),
    }
}

#[test]
fn a_refused_request_ends_the_program_where_the_answer_has_no_error() {
    if let Ok(name) = env::var("REFUSED_CALL") {
        return call(&name);
    }
    for name in ["string", "integer", "float", "message", "set_text"] {
        let ended = Command::new(env::current_exe().unwrap())
            .args([
                "--exact",
                "a_refused_request_ends_the_program_where_the_answer_has_no_error",
            ])
            .args(["--test-threads=1", "--nocapture"])
            .env("REFUSED_CALL", name)
            .output()
            .unwrap();
        let printed = String::from_utf8_lossy(&ended.stderr);
        assert!(!ended.status.success(), "{name}");
        assert!(
            printed.contains("memory allocation of"),
            "{name}: {printed}"
        );
    }
}
