//! The entry point of the program `wat_tokens`.
#![forbid(unsafe_code)]

use std::process::ExitCode;
use wat_tokens::program;
use wat_tokens::shim::rt::HostRuntime;

fn main() -> ExitCode {
    program::main(HostRuntime::of_process())
}
