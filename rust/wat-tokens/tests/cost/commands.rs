//! The commands of the program, with a text in memory as standard input, and an output that is counted and dropped.

use crate::Prepared;
use std::io::{Result, Write};
use wat_tokens::commands::Settings;
use wat_tokens::commands::options::Mode;
use wat_tokens::commands::outcome::{Exit, Outcome};
use wat_tokens::commands::respond::{Inputs, respond};
use wat_tokens::lines::ends::{Failed, Plain};
use wat_tokens::lists::fmt::{Compared, run_compare, run_fmt};
use wat_tokens::shim::alloc::{AllocError, Global};
use wat_tokens::shim::prelude::String as Word;

/// The arguments of the commands.
pub const COMMANDS: [&str; 11] = [
    "list",
    "--json list",
    "sig a",
    "--json sig a",
    "play look reg=a look take parens=9 comment take unreg=a look parens=1 take",
    "blank",
    "types",
    "module",
    "module --no-validate",
    "fmt",
    "fmt --check",
];

/// An output that keeps only the number of bytes written.
#[derive(Default)]
struct Counted(usize);

impl Write for Counted {
    fn write(&mut self, bytes: &[u8]) -> Result<usize> {
        self.0 += bytes.len();
        Ok(bytes.len())
    }

    fn flush(&mut self) -> Result<()> {
        Ok(())
    }
}

/// Inputs in which each file name refers to the same text.
struct One<'a>(&'a str);

impl<'a> One<'a> {
    fn read(&self) -> Plain<&'a [u8]> {
        Plain::new(self.0.as_bytes())
    }
}

impl<'a> Inputs for One<'a> {
    type Input = Plain<&'a [u8]>;
    type Output = Plain<Counted>;

    fn is_there(&self, _: &str) -> bool {
        true
    }

    fn is_shown(&self) -> bool {
        false
    }

    fn create(&self, _: &str) -> std::result::Result<Plain<Counted>, AllocError> {
        Ok(Plain::new(Counted::default()))
    }

    fn open(&mut self, _: &str) -> std::result::Result<Plain<&'a [u8]>, Failed> {
        Ok(self.read())
    }

    fn lay_out(&mut self, settings: Settings, mode: Mode, file: &str) -> Exit {
        let mut input = self.read();
        let outcome = if mode == Mode::Check {
            match run_compare(Global, &mut input, settings) {
                Ok(Compared::Same) => Outcome::Listed,
                Ok(Compared::Other(_) | Compared::Longer) => Outcome::Differs,
                Ok(Compared::Faulty(error)) => Outcome::Faulty(error),
                Err(failure) => Outcome::Refused(failure),
            }
        } else {
            let mut output = Plain::new(Counted::default());
            Outcome::of_run(run_fmt(Global, &mut input, &mut output, settings))
        };
        let reported = outcome.report(Some(file), &mut Counted::default());
        reported.expect("no write fails");
        outcome.exit(false)
    }
}

/// Prepares a run of the program with these arguments.
pub fn command<'a>(words: &str, text: &'a str) -> Prepared<'a> {
    let words: Vec<Word> = words
        .split(' ')
        .map(|word| Word::from(word.to_owned()))
        .collect();
    Box::new(move || {
        let mut output = Plain::new(Counted::default());
        let mut errors = Counted::default();
        let exit = respond(Global, &words, &mut One(text), &mut output, &mut errors);
        assert!(exit.code() < 2, "the run fails");
    })
}
