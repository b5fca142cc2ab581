use std::fmt::{Debug, Display, Write};

/// The results for a text, as lines, and their counts.
#[derive(Default)]
pub struct Answers {
    pub text: String,
    pub tokens: u64,
    pub faults: u64,
    /// The number of results of parsed types and of parser calls.
    pub others: u64,
}

impl Answers {
    /// Records a token. The sign in an integer's kind prints as `Some(Minus)` in `wast`, and is recorded as `Minus`.
    pub fn token(&mut self, offset: usize, len: u32, kind: &impl Debug, value: &str) {
        self.tokens += 1;
        let kind = format!("{kind:?}")
            .replace("Some(Minus)", "Minus")
            .replace("Some(Plus)", "Plus");
        self.line(&format_args!("{offset} {len} {kind} {value}"));
    }

    /// Records the error that ends the tokens.
    pub fn fault(&mut self, printed: &str) {
        self.faults += 1;
        self.line(&printed);
    }

    /// Records any other result.
    pub fn push(&mut self, answer: &impl Display) {
        self.others += 1;
        self.line(answer);
    }

    fn line(&mut self, line: &impl Display) {
        writeln!(self.text, "{line}").expect("a String takes all");
    }
}
