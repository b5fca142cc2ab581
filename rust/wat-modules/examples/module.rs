//! Compiles the module in a file, or on standard input, and writes its bytes to standard output.
//!
//! `cargo run --example module [--no-names] [--validate] [FILE]`. An error is written to standard error, and the exit status is then 1.

use std::env;
use std::error::Error;
use std::ffi::OsStr;
use std::io::{self, Read, Write};
use std::process::ExitCode;
use wat_modules::Parser;

/// Returns the bytes of the module in a file, or on standard input if no file is named.
fn module_of(parser: &Parser, file: Option<&OsStr>) -> Result<Vec<u8>, Box<dyn Error>> {
    if let Some(file) = file {
        return Ok(parser.parse_file(file)?);
    }
    let mut input = Vec::new();
    io::stdin().read_to_end(&mut input)?;
    Ok(parser.parse_bytes(None, &input)?.into_owned())
}

fn run() -> Result<(), Box<dyn Error>> {
    let mut arguments = env::args_os().skip(1).peekable();
    let no_names = arguments.next_if(|argument| argument == "--no-names");
    let validate = arguments.next_if(|argument| argument == "--validate");
    let mut parser = Parser::new();
    parser
        .names(no_names.is_none())
        .validate(validate.is_some());
    let module = module_of(&parser, arguments.next().as_deref())?;
    io::stdout().write_all(&module)?;
    Ok(())
}

fn main() -> ExitCode {
    let Err(error) = run() else {
        return ExitCode::SUCCESS;
    };
    match error.source() {
        Some(cause) => eprintln!("{error}: {cause}"),
        None => eprintln!("{error}"),
    }
    ExitCode::FAILURE
}
