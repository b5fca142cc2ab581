//! Validates modules, for `tools/differential/compare_validity.py` of the project.
//!
//! Reads texts from standard input, each after a line with its length in bytes. Writes a line for each: `=` for a valid module, otherwise `!`, the
//! message of the error and its offset; then a tab, and the module's bytes in hexadecimal, without validation, if the text is a module.

use std::fmt::Write as _;
use std::io::{self, BufRead, Read, Write};
use wat_modules::{Parser, validate};

/// Returns the verdict on a text.
fn verdict(text: &str) -> String {
    match validate(text) {
        Ok(()) => "=".to_owned(),
        Err(error) => format!("! {} at {}", error.message(), error.span().offset()),
    }
}

/// Returns the bytes of a module in hexadecimal, or an empty text if the text is not a module.
fn code(text: &str) -> String {
    let mut digits = String::new();
    for byte in Parser::new().names(false).compile(text).unwrap_or_default() {
        write!(digits, "{byte:02x}").expect("a string takes each byte");
    }
    digits
}

fn main() -> io::Result<()> {
    let mut input = io::stdin().lock();
    let mut output = io::stdout().lock();
    let mut line = String::new();
    while input.read_line(&mut line)? > 0 {
        let length = line.trim().parse().map_err(io::Error::other)?;
        line.clear();
        let mut text = vec![0; length];
        input.read_exact(&mut text)?;
        let text = String::from_utf8(text).map_err(io::Error::other)?;
        writeln!(output, "{}\t{}", verdict(&text), code(&text))?;
        output.flush()?;
    }
    Ok(())
}
