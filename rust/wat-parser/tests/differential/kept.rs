//! Tokens that stay visible under `keep_shown`, compared with a model over the verified parser.

use crate::sides::{layer, proved};
use crate::texts::{Random, rounds};
use std::cell::RefCell;
use wat_parser::shim::alloc::Global;

/// The names that are registered and unregistered.
const NAMES: [&str; 2] = ["a", "u"];

/// A call of a parser.
#[derive(Clone, Copy, Debug)]
enum Call {
    /// Consumes the next token.
    Take,
    /// Registers a name, or unregisters it if it is registered.
    Toggle(usize),
}

thread_local! {
    static CALLS: RefCell<Vec<Call>> = const { RefCell::new(Vec::new()) };
    static SEEN: RefCell<Vec<String>> = const { RefCell::new(Vec::new()) };
}

/// A value that only has to be dropped.
trait Guard {}

impl<T> Guard for T {}

/// A value that is parsed by running `CALLS`.
struct Calls;

impl<'a> layer::Parse<'a> for Calls {
    fn parse(parser: layer::Parser<'a>) -> layer::Result<Self> {
        let mut registered: [Option<Box<dyn Guard + 'a>>; 2] = [None, None];
        for call in CALLS.take() {
            match call {
                Call::Take => take(parser),
                Call::Toggle(name) if registered[name].is_some() => registered[name] = None,
                Call::Toggle(name) => {
                    let guard = parser.register_annotation(NAMES[name]);
                    registered[name] = Some(Box::new(guard));
                }
            }
            let at = (parser.cur_span(), parser.prev_span(), parser.is_empty());
            SEEN.with_borrow_mut(|seen| seen.push(format!("{at:?}")));
        }
        Ok(Calls)
    }
}

/// Consumes the next token, if it is a parenthesis, a keyword or an annotation.
fn take(parser: layer::Parser<'_>) {
    // An error leaves the position.
    let _taken = parser.step(|cursor| {
        let next = match (cursor.lparen()?, cursor.rparen()?) {
            (Some(next), _) | (_, Some(next)) => Some(next),
            _ => cursor.keyword()?.map(|(_, next)| next),
        };
        let annotation = cursor.annotation()?.map(|(_, next)| next);
        Ok(((), next.or(annotation).unwrap_or(cursor)))
    });
}

/// The verified parser. A token that is visible after a move stays visible, because the names of that time are registered again while it is looked at.
struct Model<'a> {
    parser: proved::Parser<'a>,
    /// The names that are registered for the caller.
    names: [bool; 2],
    /// The names that were registered at the last move, if a token was visible after it.
    kept: Option<[bool; 2]>,
    registered: [bool; 2],
}

impl Model<'_> {
    /// Registers these names in the parser and no others.
    fn register(&mut self, wanted: [bool; 2]) {
        for (i, name) in NAMES.into_iter().enumerate() {
            match (self.registered[i], wanted[i]) {
                (false, true) => self.parser.register_annotation(name).unwrap(),
                (true, false) => self.parser.unregister_annotation(name),
                _ => {}
            }
        }
        self.registered = wanted;
    }

    fn take(&mut self) {
        self.register(self.kept.unwrap_or(self.names));
        let taken = self.parser.step(|cursor| {
            Ok(match cursor.any()? {
                Some((_, next)) => (true, next),
                None => (false, cursor),
            })
        });
        if let Ok(true) = taken {
            self.register(self.names);
            let seen = self
                .parser
                .step(|cursor| Ok((cursor.token()?.is_some(), cursor)));
            self.kept = matches!(seen, Ok(true)).then_some(self.names);
        }
    }

    fn seen(&mut self) -> String {
        self.register(self.kept.unwrap_or(self.names));
        let parser = &self.parser;
        format!(
            "{:?}",
            (parser.cur_span(), parser.prev_span(), parser.is_empty())
        )
    }
}

fn model(text: &str, calls: &[Call]) -> Vec<String> {
    let buffer = proved::ParseBuffer::new(Global, text).unwrap();
    let mut model = Model {
        parser: buffer.parser(),
        names: [false; 2],
        kept: None,
        registered: [false; 2],
    };
    let mut seen = Vec::new();
    for call in calls {
        match call {
            Call::Take => model.take(),
            Call::Toggle(name) => model.names[*name] ^= true,
        }
        seen.push(model.seen());
    }
    seen
}

fn answers(text: &str, calls: &[Call], keep: bool) -> Vec<String> {
    let mut buffer = layer::ParseBuffer::new(text).unwrap();
    buffer.keep_shown(keep);
    CALLS.set(calls.to_vec());
    // Most calls leave tokens.
    let _left = layer::parse::<Calls>(&buffer);
    SEEN.take()
}

#[test]
fn a_visible_token_stays_visible_after_its_move() {
    const PARTS: [&str; 10] = [
        "x ",
        "(@a y) ",
        "(@u) ",
        "(",
        ") ",
        "(@a (@u z) w) ",
        ";;c\n",
        "(@a ",
        "  ",
        "(@u v)",
    ];
    let (mut random, mut differ) = (Random(4), 0);
    for _ in 0..rounds(3_000) {
        let text: String = (0..random.below(14)).map(|_| random.pick(&PARTS)).collect();
        let calls: Vec<Call> = (0..24)
            .map(|_| match random.below(5) {
                0 | 1 => Call::Take,
                _ => Call::Toggle(random.below(2)),
            })
            .collect();
        let seen = answers(&text, &calls, true);
        assert_eq!(seen, model(&text, &calls), "{text:?} {calls:?}");
        differ += usize::from(seen != answers(&text, &calls, false));
    }
    println!("{differ} differ from what is visible at each peek");
    assert!(differ > 300, "{differ}");
}
