//! Names whose guards are dropped in any order or leaked, with peeks before and after each change.

use crate::sides::{layer, proved, told};
use crate::texts::{Random, rounds};
use std::cell::RefCell;
use std::mem;
use wat_parser::shim::alloc::Global;

/// The names that are registered.
const NAMES: [&str; 3] = ["a", "u", "name"];

/// A call of a parser. A guard is counted modulo the number of guards.
#[derive(Clone, Copy, Debug)]
enum Call {
    /// Consumes the next token if it is a parenthesis, a keyword or an annotation.
    Take,
    Register(&'static str),
    Drop(usize),
    Leak(usize),
    /// Peeks at the next 3 tokens.
    Peek,
}

thread_local! {
    static CALLS: RefCell<Vec<Call>> = const { RefCell::new(Vec::new()) };
    static SEEN: RefCell<Vec<String>> = const { RefCell::new(Vec::new()) };
}

/// Defines the calls that both sides have.
macro_rules! calls {
    ($side:ident, $parser:ty) => {
        fn take(parser: $parser) {
            // An error leaves the position.
            let _taken = parser.step(|cursor| {
                let next = match (cursor.lparen()?, cursor.rparen()?) {
                    (Some(next), _) | (_, Some(next)) => Some(next),
                    _ => cursor.keyword()?.map(|(_, next)| next),
                };
                let annotation = cursor.annotation()?.map(|(_, next)| next);
                Ok(((), next.or(annotation).unwrap_or(cursor)))
            });
        }

        fn peek(parser: $parser) {
            use $side::{LParen, RParen};
            let peeks = [
                told(parser.peek::<LParen>()),
                told(parser.peek2::<LParen>()),
                told(parser.peek3::<LParen>()),
                told(parser.peek::<RParen>()),
                told(parser.peek2::<RParen>()),
            ];
            let at = (parser.cur_span(), parser.prev_span(), parser.is_empty());
            SEEN.with_borrow_mut(|seen| seen.push(format!("{at:?} {peeks:?}")));
        }
    };
}

mod ours {
    use super::{CALLS, Call, SEEN, layer, mem, told};

    calls!(layer, layer::Parser<'_>);

    /// A value that is parsed by running `CALLS`.
    pub struct Calls;

    impl<'a> layer::Parse<'a> for Calls {
        fn parse(parser: layer::Parser<'a>) -> layer::Result<Self> {
            let mut guards = Vec::new();
            for call in CALLS.take() {
                let count = guards.len().max(1);
                match call {
                    Call::Take => take(parser),
                    Call::Peek => peek(parser),
                    Call::Register(name) => guards.push(parser.register_annotation(name)),
                    Call::Drop(number) if !guards.is_empty() => {
                        guards.swap_remove(number % count);
                    }
                    Call::Leak(number) if !guards.is_empty() => {
                        mem::forget(guards.swap_remove(number % count));
                    }
                    Call::Drop(_) | Call::Leak(_) => {}
                }
            }
            Ok(Calls)
        }
    }
}

mod theirs {
    use super::{CALLS, Call, SEEN, proved, told};

    calls!(proved, &mut proved::Parser<'_>);

    /// Runs `CALLS` with a parser.
    pub fn run(parser: &mut proved::Parser<'_>) {
        let mut names = Vec::new();
        for call in CALLS.take() {
            let count = names.len().max(1);
            match call {
                Call::Take => take(parser),
                Call::Peek => peek(parser),
                Call::Register(name) => {
                    parser.register_annotation(name).unwrap();
                    names.push(name);
                }
                Call::Drop(number) if !names.is_empty() => {
                    parser.unregister_annotation(names.swap_remove(number % count));
                }
                Call::Leak(number) if !names.is_empty() => {
                    names.swap_remove(number % count);
                }
                Call::Drop(_) | Call::Leak(_) => {}
            }
        }
    }
}

fn call(random: &mut Random) -> Call {
    match random.below(10) {
        0..=1 => Call::Take,
        2..=3 => Call::Register(random.pick(&NAMES)),
        4..=5 => Call::Drop(random.below(8)),
        6 if random.once_in(6) => Call::Leak(random.below(8)),
        _ => Call::Peek,
    }
}

#[test]
fn peeks_are_those_of_the_registered_names() {
    const PARTS: [&str; 14] = [
        "func ",
        "(@a y) ",
        "(@u) ",
        "(@name \"x\") ",
        "(@\"\\75\" x)",
        "(",
        ") ",
        "(@a (@u z) w) ",
        ";;c\n",
        "(@a ",
        "  ",
        "(@u v)",
        "(@\"\\ff\")",
        "\"",
    ];
    let mut random = Random(10);
    for _ in 0..rounds(3_000) {
        let text: String = (0..random.below(10)).map(|_| random.pick(&PARTS)).collect();
        let calls: Vec<Call> = (0..24).map(|_| call(&mut random)).collect();
        CALLS.set(calls.clone());
        let buffer = layer::ParseBuffer::new(&text).unwrap();
        // Most calls leave tokens.
        let _left = layer::parse::<ours::Calls>(&buffer);
        let seen = SEEN.take();
        CALLS.set(calls.clone());
        let buffer = proved::ParseBuffer::new(Global, &text).unwrap();
        theirs::run(&mut buffer.parser());
        assert_eq!(seen, SEEN.take(), "{text:?} {calls:?}");
    }
}
