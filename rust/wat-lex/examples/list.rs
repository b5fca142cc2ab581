//! Lists the raw tokens of standard input in the format of `wat_tokens`, one per line. After a lexical error, prints it to standard error and exits
//! with status 1.

use std::io::{self, BufWriter, Read, Write};
use std::process::ExitCode;
use wat_lex::{Error, Lexer};

/// Writes the list, and returns the error at which it ends, if there is one.
fn list(text: &str, out: &mut impl Write) -> io::Result<Option<Error>> {
    for token in Lexer::new(text).iter(0) {
        match token {
            Ok(token) => {
                let end = token.offset + token.len as usize;
                writeln!(out, "{}..{end} {}", token.offset, token.kind.name())?;
            }
            Err(error) => return Ok(Some(error)),
        }
    }
    Ok(None)
}

fn main() -> io::Result<ExitCode> {
    let mut text = String::new();
    io::stdin().read_to_string(&mut text)?;
    let mut out = BufWriter::new(io::stdout().lock());
    let error = list(&text, &mut out)?;
    out.flush()?;
    Ok(match error {
        Some(error) => {
            eprintln!("{error}");
            ExitCode::from(1)
        }
        None => ExitCode::SUCCESS,
    })
}
