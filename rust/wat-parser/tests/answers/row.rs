//! Test cases of the table.

use crate::pictures::spelled;
use crate::sources::Source;

/// How a test case formats an error.
#[derive(Clone, Copy)]
pub enum Refusals {
    /// The message and the offset.
    Brief,
    /// The printed text, with the line.
    Printed,
    /// The lexical error in it.
    Cause,
}

#[derive(Clone)]
pub struct Row {
    pub refusals: Refusals,
    pub call: &'static str,
    /// The part of the call after `@`.
    pub with: &'static str,
    pub text: String,
    /// The buffer that the parser reads.
    pub source: Source,
}

impl Row {
    pub fn read(line: &'static str, source: Source) -> Row {
        let (head, text) = line.split_once(' ').unwrap_or((line, ""));
        let (call, with) = head.split_once('@').unwrap_or((head, ""));
        let (refusals, call) = if let Some(call) = call.strip_prefix("printed-") {
            (Refusals::Printed, call)
        } else if let Some(call) = call.strip_prefix("cause-") {
            (Refusals::Cause, call)
        } else {
            (Refusals::Brief, call)
        };
        let text = spelled(text);
        Row {
            refusals,
            call,
            with,
            text,
            source,
        }
    }

    /// Returns the integer after the call's `@`, or 0.
    pub fn at(&self) -> usize {
        self.with.parse().unwrap_or(0)
    }
}
