//! Calls of the proved parser, over either source.
use super::{Call, NAMES};
use crate::proved::{Source, fault, outcome};
use crate::random::Random;
use crate::report::Answers;
use std::fmt::Debug;
use wat_lex::proved::error::Error;
use wat_lex::shim::alloc::Global;
use wat_lex::shim::borrow::CowStr;
use wat_lex::shim::string::String as ProvedString;
use wat_parser::proved::parser::{Call as Listed, Cursor, Parser, replay};
use wat_parser::proved::token::{Id, Index, LParen, RParen};
use wat_parser::proved::{annotation, kw};

struct Asked<'s> {
    registered: Vec<&'static str>,
    answers: &'s mut Answers,
}

pub fn answer(parser: &mut Parser, calls: &[Call], answers: &mut Answers) {
    let registered = Vec::new();
    Asked {
        registered,
        answers,
    }
    .calls(parser, calls);
}

impl Asked<'_> {
    fn answer<T: Debug>(&mut self, call: &str, answer: Result<T, Error>) {
        let answer = outcome(answer);
        self.answers.push(&format_args!("{call} {answer}"));
    }

    fn calls(&mut self, parser: &mut Parser, calls: &[Call]) {
        for call in calls {
            self.call(parser, call);
            if matches!(call, Call::Register(_) | Call::Unregister(_)) {
                self.places(parser);
            }
        }
    }

    fn call(&mut self, parser: &mut Parser, call: &Call) {
        match call {
            Call::Places => self.places(parser),
            Call::Peeks => self.peeks(parser),
            Call::Looks(tokens) => self.looks(parser, *tokens),
            Call::Step(tokens, comments, is_refused) => {
                let step = parser.step(|cursor| step(cursor, *tokens, *comments, *is_refused));
                self.answer("step", step);
            }
            Call::Comment => {
                let comment = parser.step(|cursor| match cursor.comment()? {
                    Some((comment, next)) => Ok((Some(comment), next)),
                    None => Ok((None, cursor)),
                });
                self.answer("comment", comment);
            }
            Call::Group(calls, is_taken, is_refused) => {
                self.group(parser, calls, *is_taken, *is_refused)
            }
            Call::Register(name) => {
                parser.register_annotation(name).expect("memory");
                self.registered.push(name);
            }
            Call::Unregister(number) if !self.registered.is_empty() => {
                let number = number % self.registered.len();
                parser.unregister_annotation(self.registered.swap_remove(number));
            }
            Call::Unregister(_) => {}
            Call::Read(number) => self.read(parser, *number),
            Call::Lookahead(looks) => self.lookahead(parser, *looks),
            Call::Errors => {
                let here = parser.error("no such thing");
                let there = parser.error_at(parser.prev_span(), "not 1");
                self.answers.push(&fault(&here));
                self.answers.push(&fault(&there));
            }
        }
    }

    fn places(&mut self, parser: &Parser) {
        let spans = (parser.prev_span().offset(), parser.cur_span().offset());
        let (depth, is_empty) = (parser.parens_depth(), parser.is_empty());
        let counts = parser.has_meaningful_tokens();
        self.answers
            .push(&format_args!("at {spans:?} {depth} {is_empty} {counts}"));
    }

    fn peeks(&mut self, parser: &Parser) {
        for answer in [
            parser.peek::<LParen>(),
            parser.peek::<u32>(),
            parser.peek::<annotation::name>(),
            parser.peek2::<RParen>(),
            parser.peek2::<Id>(),
            parser.peek2::<annotation::name>(),
            parser.peek3::<LParen>(),
            parser.peek3::<kw::func>(),
        ] {
            self.answer("peek", answer);
        }
    }

    fn looks(&mut self, parser: &mut Parser, tokens: usize) {
        let seen = parser.step(|cursor| {
            let mut on = cursor;
            for _ in 0..tokens {
                let Some((_, next)) = any(on)? else { break };
                on = next;
            }
            let seen = [
                on.peek_lparen()?,
                on.peek_rparen()?,
                on.peek_id()?,
                on.peek_reserved()?,
                on.peek_keyword()?,
                on.peek_integer()?,
                on.peek_float()?,
                on.peek_string()?,
            ];
            let comment = on
                .comment()?
                .map(|(comment, next)| (comment, next.cur_span().offset()));
            let shown = format!("{seen:?} {comment:?} {}", on.cur_span().offset());
            Ok((shown, cursor))
        });
        self.answer("looks", seen);
    }

    fn group(&mut self, parser: &mut Parser, calls: &[Call], is_taken: bool, is_refused: bool) {
        let group = parser.parens(|inside: &mut Parser| {
            self.calls(inside, calls);
            if is_taken {
                take_rest(inside)?;
            }
            if is_refused {
                return Err(inside.error("refused"));
            }
            Ok(inside.prev_span().offset())
        });
        self.answer("group", group);
    }

    fn read(&mut self, parser: &mut Parser, number: usize) {
        match number {
            0 => self.answer("read", parser.parse::<u32>()),
            1 => self.answer("read", parser.parse::<i64>()),
            2 => self.answer("read", parser.parse::<CowStr>()),
            3 => self.answer("read", parser.parse::<Id>()),
            4 => self.answer("read", parser.parse::<Index>()),
            5 => self.answer("read", parser.parse::<Option<Id>>()),
            _ => self.answer("read", parser.parse::<Option<u32>>()),
        }
    }

    fn lookahead(&mut self, parser: &Parser, looks: usize) {
        let mut lookahead = parser.lookahead1();
        let mut seen = Vec::new();
        for look in 0..looks {
            seen.push(match look {
                0 => lookahead.peek::<LParen>(),
                1 => lookahead.peek::<u32>(),
                2 => lookahead.peek::<Id>(),
                3 => lookahead.peek::<kw::module>(),
                _ => lookahead.peek::<annotation::name>(),
            });
        }
        for seen in seen {
            self.answer("sees", seen);
        }
        self.answers.push(&fault(&lookahead.error()));
    }
}

/// Steps over a number of tokens, with the comments before those whose bit is set.
fn step<'p, 'a>(
    mut cursor: Cursor<'p, 'a>,
    tokens: usize,
    comments: usize,
    is_refused: bool,
) -> Result<(String, Cursor<'p, 'a>), Error> {
    let mut taken = String::new();
    for number in 0..tokens {
        if comments >> number & 1 == 1 {
            while let Some((comment, next)) = cursor.comment()? {
                taken += comment;
                cursor = next;
            }
        }
        let Some((token, next)) = any(cursor)? else {
            break;
        };
        taken += &token;
        cursor = next;
    }
    if is_refused {
        return Err(cursor.error("refused"));
    }
    Ok((taken, cursor))
}

/// Consumes the visible token with the method of its kind, and checks that `Cursor::any` moves to the same position. Returns its text, and the cursor
/// after it.
fn any<'p, 'a>(cursor: Cursor<'p, 'a>) -> Result<Option<(String, Cursor<'p, 'a>)>, Error> {
    let taken = taken(cursor)?;
    let found = cursor.any()?;
    let same = (taken.as_ref().map(|(_, next)| next.cur_span()))
        == (found.map(|(_, next)| next.cur_span()));
    assert!(same, "`any` and the taker of a kind");
    Ok(taken)
}

fn taken<'p, 'a>(cursor: Cursor<'p, 'a>) -> Result<Option<(String, Cursor<'p, 'a>)>, Error> {
    if let Some(next) = cursor.lparen()? {
        return Ok(Some(("(".to_owned(), next)));
    }
    if let Some(next) = cursor.rparen()? {
        return Ok(Some((")".to_owned(), next)));
    }
    if let Some((name, next)) = cursor.id()? {
        return Ok(Some((format!("id {}", name.as_str()), next)));
    }
    if let Some((name, next)) = cursor.annotation()? {
        return Ok(Some((format!("annotation {}", name.as_str()), next)));
    }
    if let Some((word, next)) = cursor.keyword()? {
        return Ok(Some((format!("keyword {word}"), next)));
    }
    taken_value(cursor)
}

fn taken_value<'p, 'a>(cursor: Cursor<'p, 'a>) -> Result<Option<(String, Cursor<'p, 'a>)>, Error> {
    if let Some((word, next)) = cursor.reserved()? {
        return Ok(Some((format!("reserved {word}"), next)));
    }
    if let Some((integer, next)) = cursor.integer()? {
        let integer = format!("{:?} {:?}", integer.val(), integer.sign());
        return Ok(Some((integer, next)));
    }
    if let Some((float, next)) = cursor.float()? {
        return Ok(Some((format!("{float:?}"), next)));
    }
    let string = cursor.string()?;
    Ok(string.map(|(string, next)| (format!("{:?}", string.as_slice()), next)))
}

/// Consumes the rest of a group.
fn take_rest(parser: &mut Parser) -> Result<(), Error> {
    let mut depth = 0;
    while depth > 0 || !parser.is_empty() {
        depth += parser.step(|cursor| {
            let Some((token, next)) = any(cursor)? else {
                return Err(cursor.error("a group that is not closed"));
            };
            let deeper = isize::from(token == "(") - isize::from(token == ")");
            Ok((deeper, next))
        })?;
    }
    Ok(())
}

/// Records the replies to random calls given as values to `replay`, the positions of the parser after them, and the text's lexical error.
pub fn answer_list(source: &Source, random: &mut Random, answers: &mut Answers) {
    let mut parser = source.parser();
    for _ in 0..=random.below(16) {
        let name = ProvedString::from_str(Global, random.one_of(NAMES)).expect("memory");
        let call = match random.below(10) {
            0 => Listed::Look,
            1..5 => Listed::Take,
            5 => Listed::Comment,
            6 | 7 => Listed::Register(name),
            8 => Listed::Unregister(name),
            _ => Listed::Parens(random.below(4)),
        };
        let replies = replay(Global, &mut parser, &[call]).expect("memory");
        answers.push(&format_args!("{replies:?}"));
    }
    let fault = source.lex_fault();
    answers.push(&format_args!(
        "{} {} {fault:?}",
        parser.prev_span().offset(),
        parser.cur_span().offset()
    ));
}
