//! Reads the lines that `tools/test/c/floats.c` prints: a number and its bits as `F32` and as `F64`, with `-` for a number that has none and `?` for
//! any bits. Prints the number of lines, or exits with status 1 at the first difference.

use std::io;
use std::process::ExitCode;
use wat_parser::parser::{self, Parse, ParseBuffer};
use wat_parser::token::{F32, F64};

/// Parses a number and returns its bits, or `-` after an error.
fn bits<T: for<'a> Parse<'a>>(number: &str, bits: impl Fn(T) -> u64) -> String {
    let read = ParseBuffer::new(number).and_then(|buffer| parser::parse::<T>(&buffer));
    read.map_or("-".to_string(), |float| format!("{:x}", bits(float)))
}

fn main() -> io::Result<ExitCode> {
    let mut count = 0;
    for line in io::stdin().lines() {
        let line = line?;
        let mut words = line.split_whitespace();
        let [Some(number), single, double] = [(); 3].map(|()| words.next()) else {
            continue;
        };
        let read = [
            bits(number, |float: F32| float.bits.into()),
            bits(number, |float: F64| float.bits),
        ];
        let fits = |wanted: Option<&str>, read: &str| wanted == Some("?") || wanted == Some(read);
        if !fits(single, &read[0]) || !fits(double, &read[1]) {
            eprintln!("{line}: read as {} {}", read[0], read[1]);
            return Ok(ExitCode::FAILURE);
        }
        count += 1;
    }
    println!("{count} numbers");
    Ok(ExitCode::SUCCESS)
}
