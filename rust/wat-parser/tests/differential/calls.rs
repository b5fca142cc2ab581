//! Random calls of a parser.

use crate::sides::{PEEKS, READINGS};
use crate::texts::Random;

/// A call of a parser. Numbers of types count those of `crate::sides`.
#[derive(Clone, Debug)]
pub enum Call {
    /// All calls that do not change the parser.
    Look,
    /// A parse of a type.
    Parse(usize),
    /// Peeks at types by one `Lookahead1`.
    Lookahead(Vec<usize>),
    /// A step along moves of a cursor, which fails at its end if the flag is set.
    Step(Vec<usize>, bool),
    /// A group, which fails at its end if the flag is set.
    Group(Vec<Call>, bool),
    /// Calls under a registered name.
    Under(&'static str, Vec<Call>),
    /// Calls under the standard names.
    Standard(Vec<Call>),
    /// A parse of the tokens up to the end of the group.
    Rest,
    /// A step past the next token.
    Next,
}

/// Number of kinds of moves of a cursor. Those from `ANY` on consume any token.
pub const MOVES: usize = 24;

/// The first move that consumes any token.
pub const ANY: usize = 10;

/// Names that are registered.
pub const NAMES: &[&str] = &["a", "aa", "name", "custom", "u"];

/// Returns random calls with groups in groups to this depth. Names are registered only if `registers` is set.
pub fn calls(random: &mut Random, depth: usize, registers: bool) -> Vec<Call> {
    let mut calls: Vec<Call> = (0..=random.below(6))
        .map(|_| call(random, depth, registers))
        .collect();
    if random.once_in(2) {
        calls.push(Call::Rest);
    }
    calls
}

fn call(random: &mut Random, depth: usize, registers: bool) -> Call {
    let kinds = match (depth, registers) {
        (0, _) => 8,
        (_, false) => 11,
        (_, true) => 14,
    };
    match random.below(kinds) {
        0 | 1 => Call::Look,
        2..=4 => Call::Parse(random.below(READINGS)),
        5 => Call::Lookahead(numbers(random, 12, PEEKS)),
        6 | 7 => Call::Step(numbers(random, 6, MOVES), random.once_in(4)),
        8..=10 => Call::Group(calls(random, depth - 1, registers), random.once_in(6)),
        11 | 12 => Call::Under(random.pick(NAMES), calls(random, depth - 1, registers)),
        _ => Call::Standard(calls(random, depth - 1, registers)),
    }
}

/// Returns fewer than `most` numbers, each below `end`.
fn numbers(random: &mut Random, most: usize, end: usize) -> Vec<usize> {
    let count = random.below(most);
    (0..count).map(|_| random.below(end)).collect()
}
