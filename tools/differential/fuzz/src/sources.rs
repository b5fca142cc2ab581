//! Differential fuzzing of the proved parser over a table, the same parser over the text itself, and the layer: each gets the same calls.

mod asked_layer;
mod asked_proved;

use crate::proved::{self, Source};
use crate::random::Random;
use crate::report::Answers;
use crate::texts::{ALL, Texts};
use crate::{MOST_DIFFERENCES, Totals, ours};
use std::rc::Rc;

/// Annotation names to register: most occur in the texts, some of them with escapes.
const NAMES: &[&str] = &[
    "a", "a", "a", "b", "b", "name", "name", "ab", "custom", "é", "", "a\0",
];

/// A call of a parser, or several calls.
pub enum Call {
    /// The parser's position, and the position of the visible token.
    Places,
    /// Peeks for types at the first three tokens.
    Peeks,
    /// Each peek of a cursor, after this number of tokens.
    Looks(usize),
    /// A step over a number of tokens, with the comments before those whose bit is set; the flag makes the step return an error at its end.
    Step(usize, usize, bool),
    /// A step over the next comment.
    Comment,
    /// Calls in a group. The first flag consumes the rest of the group, the second makes the closure return an error.
    Group(Vec<Call>, bool, bool),
    Register(&'static str),
    /// The removal of one of the registered names.
    Unregister(usize),
    /// The parse of a type.
    Read(usize),
    Lookahead(usize),
    /// Errors at the current token, and at the token consumed last.
    Errors,
}

fn calls(random: &mut Random, most: usize, depth: usize) -> Vec<Call> {
    (0..=random.below(most))
        .map(|_| call(random, depth))
        .collect()
}

fn call(random: &mut Random, depth: usize) -> Call {
    match random.below(24) {
        0 | 1 => Call::Places,
        2 => Call::Peeks,
        3 | 4 => Call::Looks(random.below(3)),
        5..9 => Call::Step(random.below(4), random.below(8), random.is_one_in(6)),
        9 | 10 => Call::Comment,
        11..15 if depth < 5 => Call::Group(
            calls(random, 5, depth + 1),
            random.is_one_in(2),
            random.is_one_in(6),
        ),
        15 | 16 => Call::Register(random.one_of(NAMES)),
        17..20 => Call::Unregister(random.below(4)),
        20 => Call::Read(random.below(7)),
        21 => Call::Lookahead(random.below(8)),
        22 => Call::Errors,
        _ => Call::Step(1, 0, false),
    }
}

/// Makes the calls of the proved parser over a source, then a random list of calls by `replay`, and parses two types from `first` on. Returns the
/// results.
fn asked(source: &Source, calls: &[Call], listed: u64, first: usize) -> Answers {
    let mut answers = Answers::default();
    asked_proved::answer(&mut source.parser(), calls, &mut answers);
    asked_proved::answer_list(source, &mut Random::new(listed), &mut answers);
    for number in (first..proved::TYPES).take(2) {
        proved::typed(source, number, &mut answers);
    }
    answers
}

pub fn compare_texts(seed: u64, count: u64, files: Vec<String>) -> Totals {
    let mut totals = Totals::default();
    let mut random = Random::new(seed);
    let mut texts = Texts::new(Random::new(random.next()), files, ALL);
    while totals.texts < count && totals.different < MOST_DIFFERENCES {
        let text = texts.next_annotated();
        let allow = random.is_one_in(2);
        let calls = calls(&mut random, 12, 0);
        let (listed, first) = (random.next(), random.below(proved::TYPES));
        let table = asked(&Source::table(&text, allow), &calls, listed, first);
        let lazy = asked(&Source::text(&text, allow), &calls, listed, first);
        totals.compare_two(&text, ["text", "table"], &lazy, &table);
        let mut proved = Answers::default();
        asked_proved::answer(
            &mut Source::text(&text, allow).parser(),
            &calls,
            &mut proved,
        );
        let layer = asked_layer::answer(&ours::buffer_of(&text, allow), Rc::from(calls));
        totals.compare(&text, "proved", &layer, &proved);
        totals.add(&lazy);
    }
    totals
}
