//! The calls whose instructions and memory `tools/test/cost.py` counts: the commands of the program, and calls of the libraries for Rust and C. It
//! runs the test `measure` under callgrind, which collects the instructions of the function `cost_measured` and writes a count for each call of it.

mod allocator;
mod calls;
mod commands;
// The C library has no form that Rust links.
#[allow(dead_code, unused_imports, unused_labels)]
#[allow(clippy::style, clippy::complexity, clippy::pedantic)]
#[path = "../../../wat-c/src/generated"]
mod generated {
    pub mod wat_c_records;
    pub mod wat_c {
        pub mod positions;
        pub mod recovery;
    }
}

use calls::CALLS;
use commands::{COMMANDS, command};
use generated::wat_c_records as rows;
use std::fmt::Write;
use std::fs;
use std::hint::black_box;

/// A call with its arguments.
type Prepared<'a> = Box<dyn FnMut() + 'a>;

/// Returns the names of the calls.
fn names() -> impl Iterator<Item = &'static str> {
    let calls = CALLS.iter().map(|(name, _)| *name);
    COMMANDS.into_iter().chain(calls)
}

/// Prepares the call of a name on a text.
fn prepared<'a>(name: &str, text: &'a str) -> Prepared<'a> {
    match CALLS.iter().find(|(call, _)| *call == name) {
        Some((_, prepare)) => prepare(text),
        None => command(name, text),
    }
}

/// Seeds a fault into a call, which the self-test of `tools/test/cost.py` must report: the call runs twice, searches once in each prefix of the text
/// whose length is a multiple of 16, or keeps eight bytes for each byte.
fn seeded<'a>(seed: &str, mut call: Prepared<'a>, text: &'a str) -> Prepared<'a> {
    match seed {
        "twice" => Box::new(move || {
            call();
            call();
        }),
        "quadratic" => Box::new(move || {
            let ends = (0..text.len()).step_by(16);
            let found = ends.filter(|end| text.as_bytes()[..*end].contains(&0));
            black_box(found.count());
            call();
        }),
        "kept" => Box::new(move || {
            let kept = black_box(Vec::<u8>::with_capacity(8 * text.len()));
            call();
            drop(kept);
        }),
        _ => call,
    }
}

/// Runs a call. Callgrind finds this function by its name.
#[inline(never)]
fn cost_measured(call: &mut dyn FnMut()) {
    call();
    // The call is not the last one of this function, which would be a jump.
    black_box(&call);
}

#[test]
fn each_call_accepts_a_text_with_and_without_errors() {
    for text in ["", "(module (@a) (func $f))", "\u{e9}\u{e9} (; \"\\q"] {
        for name in names() {
            cost_measured(&mut prepared(name, text));
        }
    }
}

/// Measures each call on each text. `COST_TEXTS` names a file with the paths of the texts, a line each. Appends a line to the file `COST_MEMORY` for
/// each call, in order: the path, the two numbers of [`allocator::memory`], and the name of the call. `COST_SEED` names a fault for [`seeded`], or is
/// empty.
#[test]
#[ignore = "tools/test/cost.py runs it"]
fn measure() {
    let variable = |name| std::env::var(name).expect("cost.py sets it");
    let paths = fs::read_to_string(variable("COST_TEXTS")).unwrap();
    let seed = variable("COST_SEED");
    let mut lines = String::new();
    for path in paths.lines() {
        let text = fs::read_to_string(path).unwrap();
        for name in names() {
            let mut call = seeded(&seed, prepared(name, &text), &text);
            let (peak, blocks) = allocator::memory(|| cost_measured(&mut call));
            writeln!(lines, "{path}\t{peak}\t{blocks}\t{name}").unwrap();
        }
    }
    fs::write(variable("COST_MEMORY"), lines).unwrap();
}
