//! Makes the same random calls of wast's lowest layer and of this project's, on random texts, and compares their results: values, positions, and
//! printed errors.
//!
//! usage: plays COUNT [keep]      keep: this project's buffers keep their visible tokens, as wast's do

use std::cell::{Cell, RefCell};
use std::fmt::{Debug, Display};
use std::panic;
use std::process::ExitCode;

mod theirs {
    use wast as layer;
    include!("calls.rs");
}

mod ours {
    use wat_parser as layer;
    include!("calls.rs");
}

/// The names to register and unregister.
const NAMES: [&str; 5] = ["a", "name", "custom", "x y", "\u{e9}"];

#[rustfmt::skip]
const PIECES: [&str; 38] = [
    "(", ")", "(@a", "(@name \"x\")", "(@custom ", "(@\"x y\"", "(@\"\\u{e9}\" 1)", "@a", "$x", "$\"a\\62\"", "func", "foo", "in-line", "<=>",
    "1", "-0", "255", "-129", "0x1_0", "18446744073709551616", "1.5", "0x1.8p3", "nan:0x7f", "-inf", "\"s\"", "\"\\n\\u{e9}\"", "\"\\ff\"",
    ";; c\n", "(; b (; n ;) ;)", ",", "a\"b\"", "\t", "\u{6f22}", ";;\u{202e}\n", "(@", "$", "(@\"\\ff\"", "@",
];

/// The number of fragments, from the first on, that are not lexical errors by themselves.
const TAME: usize = 32;

/// The fragments that cause a lexical error up to the end of the text.
const FAULTS: [&str; 4] = ["(;", "\"", "(@\"\")", "$\"\\ff\""];

thread_local! {
    static STATE: Cell<u64> = const { Cell::new(1) };
    static NOTES: RefCell<String> = const { RefCell::new(String::new()) };
}

/// Returns a pseudo-random number below `bound`. Both layers get equal numbers.
fn below(bound: usize) -> usize {
    let mut state = STATE.get();
    state ^= state << 13;
    state ^= state >> 7;
    state ^= state << 17;
    STATE.set(state);
    (state >> 11) as usize % bound
}

/// Notes a result.
fn note(answer: impl Display) {
    NOTES.with_borrow_mut(|notes| *notes += &format!("{answer}\n"));
}

fn note_value(value: impl Debug) {
    note(format_args!("{value:?}"));
}

/// Notes the cause of an error. Only wast's cause of a name that is not UTF-8 contains the bytes, so that cause is noted by its name alone.
fn note_cause(cause: Option<impl Debug>) {
    const NAME: &str = "InvalidUtf8Id";
    let cause = format!("{cause:?}");
    note(if cause.contains(NAME) { NAME } else { &cause });
}

fn text() -> String {
    let (count, pieces) = (
        1 + below(30),
        if below(4) == 0 { PIECES.len() } else { TAME },
    );
    let mut text = String::new();
    for _ in 0..count {
        text += PIECES[below(pieces)];
        text += ["", " ", " ", "\n"][below(4)];
    }
    if below(8) == 0 {
        text += FAULTS[below(FAULTS.len())];
    }
    text
}

/// Returns the results of the calls that a layer makes from this state of the generator.
fn answers(state: u64, play: impl Fn() + panic::UnwindSafe) -> String {
    STATE.set(state);
    if panic::catch_unwind(play).is_err() {
        note("a panic");
    }
    NOTES.take()
}

/// Prints the first results that differ.
fn show(text: &str, theirs: &str, ours: &str) {
    let differ = theirs
        .lines()
        .zip(ours.lines())
        .find(|(one, other)| one != other);
    let (one, other) = differ.unwrap_or(("", ""));
    println!("plays: {text:?}\n  wast: {one}\n  ours: {other}");
}

fn main() -> ExitCode {
    let mut arguments = std::env::args().skip(1);
    let count = arguments.next().and_then(|count| count.parse().ok());
    let count: u64 = count.unwrap_or(10_000);
    let keep = arguments.next().is_some_and(|word| word == "keep");
    panic::set_hook(Box::new(|_| {}));
    let (mut all, mut differ) = (0, 0);
    for play in 1..=count {
        STATE.set(play.wrapping_mul(0x9e37_79b9_7f4a_7c15));
        let (text, allow) = (text(), below(4) == 0);
        let state = STATE.get();
        let theirs = answers(state, || theirs::play(&text, allow, |_| ()));
        let ours = answers(state, || {
            ours::play(&text, allow, |buffer| {
                buffer.keep_shown(keep);
            });
        });
        all += theirs.lines().count();
        if theirs != ours {
            differ += 1;
            if differ <= 3 {
                show(&text, &theirs, &ours);
            }
        }
    }
    println!("plays: {differ} of {count} plays differ, {all} answers");
    ExitCode::from(u8::from(differ > 0))
}
