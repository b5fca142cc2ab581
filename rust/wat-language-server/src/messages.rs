//! The transport of the protocol: JSON messages, each after a header with its length.

use serde_json::{Value, json};
use std::io::{self, BufRead, Read, Write};

/// Maximum length of a message in bytes. A longer one is an error.
pub const LONGEST_MESSAGE: u64 = 1 << 26;

/// Number of bytes at the end of a header line that are kept. The others are dropped as they arrive.
const LONGEST_LINE: usize = 1 << 12;

/// Name of the header with the length of the message in bytes.
const LENGTH_NAME: &[u8] = b"content-length";

/// A message, and whether it contained lone surrogates.
#[derive(Debug)]
pub struct Message {
    pub json: Value,
    /// `true` if U+FFFD has replaced lone surrogates, so that a text of the message differs from the client's.
    pub is_lossy: bool,
}

/// An error as JSON-RPC reports it.
#[derive(Debug)]
pub struct Error {
    pub code: i32,
    pub message: String,
}

impl Error {
    /// Returns an error of a header or of JSON that cannot be parsed.
    pub fn parse(message: &str) -> Error {
        Error::new(-32700, message)
    }

    /// Returns an error of JSON that is not a message, or of a message that is not allowed in this phase of the session.
    pub fn invalid_request(message: &str) -> Error {
        Error::new(-32600, message)
    }

    pub fn method_not_found() -> Error {
        Error::new(-32601, "method not found")
    }

    pub fn not_initialized() -> Error {
        Error::new(-32002, "the first request must be `initialize`")
    }

    fn new(code: i32, message: &str) -> Error {
        let message = message.to_owned();
        Error { code, message }
    }
}

/// Reads the next message. Returns `None` at the end of the input, even inside a message, and `Some(Err(_))` if the header or the JSON is malformed.
/// The following call then reads the message after the next `Content-Length`. Memory is allocated only as bytes arrive.
///
/// # Errors
///
/// Returns an error if a read fails.
pub fn read(input: &mut impl BufRead) -> io::Result<Option<Result<Message, Error>>> {
    let length = match read_header(input)? {
        None => return Ok(None),
        Some(Err(error)) => return Ok(Some(Err(error))),
        Some(Ok(length)) => length,
    };
    let mut body = Vec::new();
    let count = input.by_ref().take(length).read_to_end(&mut body)?;
    Ok((count as u64 == length).then(|| parse(body)))
}

/// Writes a message.
///
/// # Errors
///
/// Returns an error if a write fails.
pub fn write(output: &mut impl Write, mut message: Value) -> io::Result<()> {
    message["jsonrpc"] = json!("2.0");
    let body = message.to_string();
    write!(output, "Content-Length: {}\r\n\r\n{body}", body.len())?;
    output.flush()
}

/// Reads the lines of a header up to an empty line, and returns the length of the message. Returns `None` at the end of the input. Skips empty lines
/// before the header.
fn read_header(input: &mut impl BufRead) -> io::Result<Option<Result<u64, Error>>> {
    let mut length = None;
    while let Some(line) = read_line(input)? {
        if let Some(value) = length_in(&line) {
            length = Some(parse_length(value));
        } else if !line.is_empty() {
            length = length.or_else(|| Some(Err(Error::parse("a header without a length"))));
        } else if length.is_some() {
            return Ok(length);
        }
    }
    Ok(None)
}

/// Reads a line, and returns its end without trailing whitespace: at most `2 * LONGEST_LINE` bytes. Returns `None` at the end of the input.
fn read_line(input: &mut impl BufRead) -> io::Result<Option<Vec<u8>>> {
    let mut line = Vec::new();
    loop {
        let mut part = input.by_ref().take(LONGEST_LINE as u64);
        if part.read_until(b'\n', &mut line)? == 0 {
            return Ok(None);
        }
        if line.ends_with(b"\n") {
            return Ok(Some(line.trim_ascii_end().to_vec()));
        }
        let surplus = line.len().saturating_sub(LONGEST_LINE);
        line.drain(..surplus);
    }
}

/// Returns the value of a line `Content-Length: value`, or `None` for any other line. The name is not case-sensitive. It need not begin the line,
/// since the rest of a message whose length was wrong may precede it.
fn length_in(line: &[u8]) -> Option<&[u8]> {
    let mut names = line.windows(LENGTH_NAME.len());
    let at = names.rposition(|name| name.eq_ignore_ascii_case(LENGTH_NAME))?;
    let value = line[at + LENGTH_NAME.len()..].trim_ascii();
    value.strip_prefix(b":").map(<[u8]>::trim_ascii)
}

fn parse_length(value: &[u8]) -> Result<u64, Error> {
    let length = str::from_utf8(value).ok().and_then(|it| it.parse().ok());
    let length = length.ok_or_else(|| Error::parse("a length that is not an integer"))?;
    if length > LONGEST_MESSAGE {
        return Err(Error::parse("a message that is too long"));
    }
    Ok(length)
}

fn parse(mut body: Vec<u8>) -> Result<Message, Error> {
    let is_lossy = replace_lone_surrogates(&mut body);
    match serde_json::from_slice(&body) {
        Ok(json) => Ok(Message { json, is_lossy }),
        Err(error) => Err(Error::parse(&error.to_string())),
    }
}

/// Replaces the escapes of lone surrogates by those of U+FFFD, because JSON allows them but Rust's strings do not. Returns `true` if there are any.
fn replace_lone_surrogates(json: &mut [u8]) -> bool {
    let (mut at, mut has_any) = (0, false);
    while let Some(next) = json[at..].iter().position(|byte| *byte == b'\\') {
        at += next;
        at += match (escaped_unit(json, at), escaped_unit(json, at + 6)) {
            (Some(0xd800..=0xdbff), Some(0xdc00..=0xdfff)) => 12,
            (Some(0xd800..=0xdfff), _) => {
                json[at..at + 6].copy_from_slice(b"\\ufffd");
                has_any = true;
                6
            }
            _ => 2,
        };
        at = at.min(json.len());
    }
    has_any
}

/// Returns the UTF-16 code unit of the escape `\uXXXX` at an offset, or `None` if there is none.
fn escaped_unit(json: &[u8], at: usize) -> Option<u16> {
    let digits = json.get(at..at + 6)?.strip_prefix(b"\\u")?;
    u16::from_str_radix(str::from_utf8(digits).ok()?, 16).ok()
}
