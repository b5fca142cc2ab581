//! The language server over standard input and output. An editor runs it without arguments as the server of `.wat` and `.wast` files.
#![forbid(unsafe_code)]

use std::io;
use std::process::ExitCode;

fn main() -> io::Result<ExitCode> {
    let has_shut_down = wat_language_server::serve(io::stdin().lock(), io::stdout().lock())?;
    Ok(ExitCode::from(u8::from(!has_shut_down)))
}
