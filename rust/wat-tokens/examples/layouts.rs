//! Formats each line of standard input, and prints the formatted text as a line, or `fault` if there is a lexical error, for
//! `tools/differential/compare_formatters.py`. In a line `\n`, `\r`, `\t` and `\\` mean a line feed, a carriage return, a tab and a backslash.

use std::io::{self, Write};
use wat_format::FormatError;

/// Decodes the escapes of a line.
fn unescaped(line: &str) -> String {
    let mut text = String::new();
    let mut letters = line.chars();
    while let Some(letter) = letters.next() {
        text.extend(match letter {
            '\\' => letters.next().map(|escaped| match escaped {
                'n' => '\n',
                'r' => '\r',
                't' => '\t',
                other => other,
            }),
            plain => Some(plain),
        });
    }
    text
}

/// Encodes a text as a line, with escapes.
fn escaped(text: &str) -> String {
    text.replace('\\', "\\\\")
        .replace('\n', "\\n")
        .replace('\r', "\\r")
        .replace('\t', "\\t")
}

fn layout(line: &str) -> String {
    match wat_format::format(&unescaped(line)) {
        Ok(layout) => escaped(&layout),
        Err(FormatError::Lexical { .. }) => "fault".to_owned(),
        Err(error) => error.to_string(),
    }
}

fn main() -> io::Result<()> {
    let mut output = io::BufWriter::new(io::stdout().lock());
    for line in io::stdin().lines() {
        writeln!(output, "{}", layout(&line?))?;
    }
    output.flush()
}
