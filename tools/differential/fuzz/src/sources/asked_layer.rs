//! Calls of the layer with the names of `wast`, in the order in which `asked_proved` makes them of the proved parser.
use super::Call;
use crate::ours::{any, fault, outcome};
use crate::report::Answers;
use std::cell::Cell;
use std::fmt::Debug;
use std::rc::Rc;
use wat_parser::parser::{Cursor, Parse, ParseBuffer, Parser, Result, parse};
use wat_parser::token::{Id, Index, LParen, RParen};
use wat_parser::{annotation, kw};

/// A guard that keeps a name registered until it is dropped.
trait Held {}

impl<T> Held for T {}

struct Asked<'a> {
    registered: Vec<Box<dyn Held + 'a>>,
    answers: Answers,
}

thread_local! {
    /// The calls of the next `Asked`, since `Parse::parse` has no argument for them, and its results.
    static CALLS: Cell<Option<Rc<[Call]>>> = const { Cell::new(None) };
    static ANSWERS: Cell<Option<Answers>> = const { Cell::new(None) };
}

pub fn answer<'a>(buffer: &'a ParseBuffer<'a>, calls: Rc<[Call]>) -> Answers {
    CALLS.set(Some(calls));
    // Drops the error that `parse` returns for tokens left after the calls; the proved parser has none.
    let _left = parse::<Asked>(buffer).map(|_| ());
    ANSWERS.take().expect("answers")
}

impl<'a> Parse<'a> for Asked<'a> {
    fn parse(parser: Parser<'a>) -> Result<Self> {
        let calls = CALLS.take().expect("calls");
        let mut asked = Asked {
            registered: Vec::new(),
            answers: Answers::default(),
        };
        asked.calls(parser, &calls);
        ANSWERS.set(Some(std::mem::take(&mut asked.answers)));
        Ok(asked)
    }
}

impl<'a> Asked<'a> {
    fn answer<T: Debug>(&mut self, call: &str, answer: Result<T>) {
        let answer = outcome(answer);
        self.answers.push(&format_args!("{call} {answer}"));
    }

    fn calls(&mut self, parser: Parser<'a>, calls: &[Call]) {
        for call in calls {
            self.call(parser, call);
            if matches!(call, Call::Register(_) | Call::Unregister(_)) {
                self.places(parser);
            }
        }
    }

    fn call(&mut self, parser: Parser<'a>, call: &Call) {
        match call {
            Call::Places => self.places(parser),
            Call::Peeks => self.peeks(parser),
            Call::Looks(tokens) => self.looks(parser, *tokens),
            Call::Step(tokens, comments, is_refused) => {
                let step = parser.step(|cursor| step(cursor, *tokens, *comments, *is_refused));
                self.answer("step", step);
            }
            Call::Comment => {
                let comment = parser.step(|cursor| match cursor.comment()? {
                    Some((comment, next)) => Ok((Some(comment), next)),
                    None => Ok((None, cursor)),
                });
                self.answer("comment", comment);
            }
            Call::Group(calls, is_taken, is_refused) => {
                self.group(parser, calls, *is_taken, *is_refused)
            }
            Call::Register(name) => {
                let held = parser.register_annotation(name);
                self.registered.push(Box::new(held));
            }
            Call::Unregister(number) if !self.registered.is_empty() => {
                let number = number % self.registered.len();
                drop(self.registered.swap_remove(number));
            }
            Call::Unregister(_) => {}
            Call::Read(number) => self.read(parser, *number),
            Call::Lookahead(looks) => self.lookahead(parser, *looks),
            Call::Errors => {
                let here = parser.error("no such thing");
                let there = parser.error_at(parser.prev_span(), format_args!("not {}", 1));
                self.answers.push(&fault(&here));
                self.answers.push(&fault(&there));
            }
        }
    }

    fn places(&mut self, parser: Parser<'a>) {
        let spans = (parser.prev_span().offset(), parser.cur_span().offset());
        let (depth, is_empty) = (parser.parens_depth(), parser.is_empty());
        let counts = parser.has_meaningful_tokens();
        self.answers
            .push(&format_args!("at {spans:?} {depth} {is_empty} {counts}"));
    }

    fn peeks(&mut self, parser: Parser<'a>) {
        for answer in [
            parser.peek::<LParen>(),
            parser.peek::<u32>(),
            parser.peek::<annotation::name>(),
            parser.peek2::<RParen>(),
            parser.peek2::<Id>(),
            parser.peek2::<annotation::name>(),
            parser.peek3::<LParen>(),
            parser.peek3::<kw::func>(),
        ] {
            self.answer("peek", answer);
        }
    }

    fn looks(&mut self, parser: Parser<'a>, tokens: usize) {
        let seen = parser.step(|cursor| {
            let mut on = cursor;
            for _ in 0..tokens {
                let Some((_, next)) = any(on)? else { break };
                on = next;
            }
            let seen = [
                on.peek_lparen()?,
                on.peek_rparen()?,
                on.peek_id()?,
                on.peek_reserved()?,
                on.peek_keyword()?,
                on.peek_integer()?,
                on.peek_float()?,
                on.peek_string()?,
            ];
            let comment = on
                .comment()?
                .map(|(comment, next)| (comment, next.cur_span().offset()));
            let shown = format!("{seen:?} {comment:?} {}", on.cur_span().offset());
            Ok((shown, cursor))
        });
        self.answer("looks", seen);
    }

    fn group(&mut self, parser: Parser<'a>, calls: &[Call], is_taken: bool, is_refused: bool) {
        let group = parser.parens(|inside| {
            self.calls(inside, calls);
            if is_taken {
                crate::ours::skip(inside)?;
            }
            if is_refused {
                return Err(inside.error("refused"));
            }
            Ok(inside.prev_span().offset())
        });
        self.answer("group", group);
    }

    fn read(&mut self, parser: Parser<'a>, number: usize) {
        match number {
            0 => self.answer("read", parser.parse::<u32>()),
            1 => self.answer("read", parser.parse::<i64>()),
            2 => self.answer("read", parser.parse::<&str>()),
            3 => self.answer("read", parser.parse::<Id>()),
            4 => self.answer("read", parser.parse::<Index>()),
            5 => self.answer("read", parser.parse::<Option<Id>>()),
            _ => self.answer("read", parser.parse::<Option<u32>>()),
        }
    }

    fn lookahead(&mut self, parser: Parser<'a>, looks: usize) {
        let mut lookahead = parser.lookahead1();
        let mut seen = Vec::new();
        for look in 0..looks {
            seen.push(match look {
                0 => lookahead.peek::<LParen>(),
                1 => lookahead.peek::<u32>(),
                2 => lookahead.peek::<Id>(),
                3 => lookahead.peek::<kw::module>(),
                _ => lookahead.peek::<annotation::name>(),
            });
        }
        for seen in seen {
            self.answer("sees", seen);
        }
        self.answers.push(&fault(&lookahead.error()));
    }
}

/// Steps over a number of tokens, with the comments before those whose bit is set.
fn step(
    mut cursor: Cursor<'_>,
    tokens: usize,
    comments: usize,
    is_refused: bool,
) -> Result<(String, Cursor<'_>)> {
    let mut taken = String::new();
    for number in 0..tokens {
        if comments >> number & 1 == 1 {
            while let Some((comment, next)) = cursor.comment()? {
                taken += comment;
                cursor = next;
            }
        }
        let Some((token, next)) = any(cursor)? else {
            break;
        };
        taken += &token;
        cursor = next;
    }
    if is_refused {
        return Err(cursor.error("refused"));
    }
    Ok((taken, cursor))
}
