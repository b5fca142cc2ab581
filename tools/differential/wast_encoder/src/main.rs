//! Encodes modules with wast's encoder, one after another, until the input ends.
//!
//! A text is sent as a line with its length in bytes, followed by its bytes. The reply is a line: `= ` and the module's bytes in hexadecimal, or `! `
//! and the error, beginning with its offset, or `! panic: ` and the message of a panic.
//!
//! With the argument `once` the whole input is one text, and the reply is its module's raw bytes, like the output of other compilers.

use std::any::Any;
use std::env;
use std::fmt::Write as _;
use std::io::{self, BufRead, Read, Write as _};
use std::panic::{self, AssertUnwindSafe};

use wast::parser::{self, ParseBuffer};
use wast::{Error, Wat};

fn bytes_of(text: &str) -> Result<Vec<u8>, Error> {
    let buffer = ParseBuffer::new(text)?;
    parser::parse::<Wat>(&buffer)?.encode()
}

fn hexadecimal(bytes: &[u8]) -> String {
    bytes.iter().fold(String::from("= "), |mut line, byte| {
        let _ = write!(line, "{byte:02x}");
        line
    })
}

fn fault(error: &Error) -> String {
    let message = format!("! {}: {}", error.span().offset(), error.message());
    message.replace(['\n', '\r'], " ")
}

fn panicked(cause: &(dyn Any + Send)) -> String {
    let said = cause.downcast_ref::<String>().map(String::as_str);
    let said = said.or_else(|| cause.downcast_ref::<&str>().copied());
    format!("! panic: {}", said.unwrap_or_default().replace('\n', " "))
}

fn answer(text: &[u8]) -> String {
    let Ok(text) = str::from_utf8(text) else {
        return String::from("! not UTF-8");
    };
    match panic::catch_unwind(AssertUnwindSafe(|| bytes_of(text))) {
        Ok(Ok(bytes)) => hexadecimal(&bytes),
        Ok(Err(error)) => fault(&error),
        Err(cause) => panicked(&*cause),
    }
}

fn once() -> io::Result<()> {
    let text = io::read_to_string(io::stdin().lock())?;
    let bytes = bytes_of(&text).map_err(|error| io::Error::other(error.message()))?;
    io::stdout().lock().write_all(&bytes)
}

fn main() -> io::Result<()> {
    if env::args().nth(1).as_deref() == Some("once") {
        return once();
    }
    panic::set_hook(Box::new(|_| {}));
    let (mut input, mut output) = (io::stdin().lock(), io::stdout().lock());
    let mut line = String::new();
    while input.read_line(&mut line)? > 0 {
        let count = line.trim_end().parse().map_err(io::Error::other)?;
        let mut text = vec![0; count];
        input.read_exact(&mut text)?;
        writeln!(output, "{}", answer(&text))?;
        output.flush()?;
        line.clear();
    }
    Ok(())
}
