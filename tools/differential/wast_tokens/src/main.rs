//! Test oracle: lists the raw tokens of standard input, lexed by the crate `wast`, in the form of `wat_tokens`: a line for each token, with its byte
//! range and its kind. A lexical error ends the list and is printed to standard error.
//!
//! usage: wast_tokens [--allow-confusing]
//!
//! The status is 0, 1 if the text has a lexical error, or 2 if the arguments are wrong or the input is not UTF-8.
use std::io::{self, Read, Write};
use std::process::ExitCode;
use wast::lexer::{Lexer, Token, TokenKind};

fn kind_name(kind: TokenKind) -> &'static str {
    match kind {
        TokenKind::LineComment => "LineComment",
        TokenKind::BlockComment => "BlockComment",
        TokenKind::Whitespace => "Whitespace",
        TokenKind::LParen => "LParen",
        TokenKind::RParen => "RParen",
        TokenKind::String => "String",
        TokenKind::Id => "Id",
        TokenKind::Keyword => "Keyword",
        TokenKind::Annotation => "Annotation",
        TokenKind::Reserved => "Reserved",
        TokenKind::Integer(_) => "Integer",
        TokenKind::Float(_) => "Float",
    }
}

fn write_line(lines: &mut Vec<u8>, token: &Token) -> io::Result<()> {
    let end = token.offset + token.len as usize;
    writeln!(lines, "{}..{end} {}", token.offset, kind_name(token.kind))
}

/// Returns the lines of the raw tokens before the first lexical error, and that error.
fn list(text: &str, allow_confusing: bool) -> io::Result<(Vec<u8>, Option<wast::Error>)> {
    let mut lexer = Lexer::new(text);
    lexer.allow_confusing_unicode(allow_confusing);
    let mut lines = Vec::new();
    // Stops at the first error: after it, `iter` may continue, or repeat it endlessly.
    for token in lexer.iter(0) {
        match token {
            Ok(token) => write_line(&mut lines, &token)?,
            Err(fault) => return Ok((lines, Some(fault))),
        }
    }
    Ok((lines, None))
}

fn run(allow_confusing: bool) -> io::Result<u8> {
    let mut bytes = Vec::new();
    io::stdin().read_to_end(&mut bytes)?;
    let Ok(text) = std::str::from_utf8(&bytes) else {
        eprintln!("wat_tokens: input is not UTF-8");
        return Ok(2);
    };
    let (lines, fault) = list(text, allow_confusing)?;
    io::stdout().write_all(&lines)?;
    Ok(match fault {
        None => 0,
        Some(fault) => {
            eprintln!("{fault}");
            1
        }
    })
}

fn main() -> io::Result<ExitCode> {
    let words: Vec<String> = std::env::args().skip(1).collect();
    let allow_confusing = match words.as_slice() {
        [] => false,
        [word] if word == "--allow-confusing" => true,
        _ => {
            eprintln!("usage: wast_tokens [--allow-confusing]");
            return Ok(ExitCode::from(2));
        }
    };
    run(allow_confusing).map(ExitCode::from)
}
