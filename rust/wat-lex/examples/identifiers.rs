//! Prints each identifier of standard input with its offset in bytes. After a lexical error, prints it to standard error and exits with status 1.

use std::io;
use std::process::ExitCode;
use wat_lex::{Error, Lexer, TokenKind};

fn print_identifiers(text: &str) -> Result<(), Error> {
    for token in Lexer::new(text).iter(0) {
        let token = token?;
        if token.kind == TokenKind::Id {
            println!("{} {}", token.offset, token.src(text));
        }
    }
    Ok(())
}

fn main() -> io::Result<ExitCode> {
    let text = io::read_to_string(io::stdin())?;
    Ok(match print_identifiers(&text) {
        Ok(()) => ExitCode::SUCCESS,
        Err(error) => {
            eprintln!("{error}");
            ExitCode::FAILURE
        }
    })
}
