// The calls of a layer with the names of `wast`, each with its result as text. `main.rs` includes this file once for each of two crates, named
// `layer`, and defines `keep_shown` for each.

use crate::random::Random;
use crate::report::Answers;
use layer::lexer::{LexError, Lexer, Token, TokenKind};
use layer::parser::{Cursor, Parse, ParseBuffer, Parser, Result, parse};
use layer::token::{F32, F64, Id, Index, ItemRef, LParen, NameAnnotation, RParen, Span};
use layer::{Error, annotation, kw};
use std::cell::Cell;
use std::fmt::Debug;

fn lexer_of(text: &str, allow: bool) -> Lexer<'_> {
    let mut lexer = Lexer::new(text);
    lexer.allow_confusing_unicode(allow);
    lexer
}

/// Records the tokens of a text with their values, and the error that ends them.
pub fn tokens(text: &str, allow: bool, answers: &mut Answers) {
    let (lexer, mut place) = (lexer_of(text, allow), 0);
    loop {
        if text.as_bytes().get(place) == Some(&b'@') {
            let found = lexer.annotation(place).map(|found| found.is_some());
            answers.push(&format_args!("annotation {}", outcome(found)));
        }
        match lexer.parse(&mut place) {
            Ok(Some(token)) => {
                answers.token(token.offset, token.len, &token.kind, &value(&token, text))
            }
            Ok(None) => return,
            Err(error) => return answers.fault(&fault(&error)),
        }
    }
}

fn value(token: &Token, text: &str) -> String {
    match token.kind {
        TokenKind::String => format!("{:?}", token.string(text)),
        TokenKind::Id => outcome(token.id(text)),
        TokenKind::Annotation => outcome(token.annotation(text)),
        TokenKind::Integer(kind) => {
            let integer = token.integer(text, kind);
            format!("{:?} {:?}", integer.val(), integer.sign())
        }
        TokenKind::Float(kind) => format!("{:?}", token.float(text, kind)),
        _ => String::new(),
    }
}

/// Formats a value, or the error.
pub fn outcome<T: Debug>(answer: Result<T>) -> String {
    match answer {
        Ok(value) => format!("{value:?}"),
        Err(error) => fault(&error),
    }
}

/// Formats an error's offset, cause, message and printed form. Omits the fields of `InvalidUtf8Id`, which exist only in `wast`.
pub fn fault(error: &Error) -> String {
    let offset = error.span().offset();
    let message = error.message();
    match error.lex_error() {
        Some(LexError::InvalidUtf8Id { .. }) => {
            format!("{offset} InvalidUtf8Id {message}\n{error}")
        }
        cause => format!("{offset} {cause:?} {message}\n{error}"),
    }
}

pub fn buffer_of(text: &str, allow: bool) -> ParseBuffer<'_> {
    ParseBuffer::new_with_lexer(lexer_of(text, allow))
        .unwrap_or_else(|error| panic!("no buffer: {error}"))
}

/// Parses the text as the type with this index, counted from 0, and records the result.
pub fn typed(text: &str, allow: bool, number: usize, answers: &mut Answers) {
    let buffer = buffer_of(text, allow);
    let read = match number {
        0 => outcome(parse::<u8>(&buffer)),
        1 => outcome(parse::<u16>(&buffer)),
        2 => outcome(parse::<u32>(&buffer)),
        3 => outcome(parse::<u64>(&buffer)),
        4 => outcome(parse::<i8>(&buffer)),
        5 => outcome(parse::<i16>(&buffer)),
        6 => outcome(parse::<i32>(&buffer)),
        7 => outcome(parse::<i64>(&buffer)),
        8 => outcome(parse::<&[u8]>(&buffer)),
        9 => outcome(parse::<&str>(&buffer)),
        10 => outcome(parse::<String>(&buffer)),
        11 => outcome(parse::<Id>(&buffer)),
        12 => outcome(parse::<Index>(&buffer)),
        13 => outcome(parse::<ItemRef<kw::func>>(&buffer).map(|item| (item.kind.0, item.idx))),
        14 => outcome(parse::<Option<u32>>(&buffer)),
        15 => outcome(parse::<Box<u32>>(&buffer)),
        16 => outcome(parse::<Option<Id>>(&buffer)),
        _ => without_proved_form(&buffer, number),
    };
    answers.push(&format_args!("type {number}: {read}"));
}

/// Parses one of the types that the proved modules print differently, or lack.
fn without_proved_form<'a>(buffer: &'a ParseBuffer<'a>, number: usize) -> String {
    match number {
        17 => outcome(parse::<(u32, Span)>(buffer)),
        18 => outcome(parse::<kw::func>(buffer)),
        19 => outcome(parse::<NameAnnotation>(buffer)),
        20 => outcome(parse::<Option<NameAnnotation>>(buffer)),
        21 => outcome(parse::<annotation::name>(buffer)),
        22 => outcome(parse::<F32>(buffer)),
        _ => outcome(parse::<F64>(buffer)),
    }
}

/// Random calls of a parser. The calls depend on a seed and on earlier results, so two layers get the same calls as long as they return the same.
struct Play {
    random: Random,
    /// Whether annotation names are registered and unregistered.
    is_registering: bool,
    answers: Answers,
}

/// Makes random calls of a parser at the start of the text, and records the results.
pub fn play(text: &str, allow: bool, seed: u64, answers: &mut Answers) {
    let is_registering = seed % 2 == 0;
    let mut buffer = buffer_of(text, allow);
    keep_shown(&mut buffer, is_registering);
    PLAY.set(Some(Play {
        random: Random::new(seed),
        is_registering,
        answers: std::mem::take(answers),
    }));
    let ended = parse::<Played>(&buffer).map(|_| ());
    *answers = PLAY.take().expect("the play comes back").answers;
    answers.push(&format_args!("ended {}", outcome(ended)));
}

thread_local! {
    /// The play that `Played` continues; `Parse::parse` has no argument for it.
    static PLAY: Cell<Option<Play>> = const { Cell::new(None) };
}

struct Played;

impl<'a> Parse<'a> for Played {
    fn parse(parser: Parser<'a>) -> Result<Self> {
        let mut play = PLAY.take().expect("a play");
        play.calls(parser, 10, 0);
        PLAY.set(Some(play));
        Ok(Played)
    }
}

/// Annotation names to register; some occur in the texts.
const NAMES: &[&str] = &["a", "b", "name", "custom", "d"];

impl Play {
    fn answer<T: Debug>(&mut self, call: &str, answer: Result<T>) {
        self.answers
            .push(&format_args!("{call} {}", outcome(answer)));
    }

    fn calls(&mut self, parser: Parser<'_>, most: usize, depth: usize) {
        for _ in 0..=self.random.below(most) {
            self.call(parser, depth);
        }
    }

    fn call(&mut self, parser: Parser<'_>, depth: usize) {
        let is_group = depth < 4 && matches!(parser.peek::<LParen>(), Ok(true));
        if is_group && self.random.is_one_in(2) {
            return self.group(parser, depth);
        }
        match self.random.below(12) {
            0 => self.places(parser),
            1 => self.peek(parser),
            2 => self.lookahead(parser),
            3 => self.parse(parser),
            4..8 => self.step(parser),
            8 => self.looks(parser),
            9 | 10 if depth < 4 => self.group(parser, depth),
            11 if self.is_registering && depth < 4 => {
                let name = self.random.one_of(NAMES);
                let _registered = parser.register_annotation(name);
                self.calls(parser, 5, depth + 1);
            }
            _ => self.errors(parser),
        }
    }

    fn places(&mut self, parser: Parser<'_>) {
        let spans = (parser.prev_span().offset(), parser.cur_span().offset());
        let answer = format_args!(
            "at {spans:?} {} {}",
            parser.parens_depth(),
            parser.is_empty()
        )
        .to_string();
        self.answers.push(&answer);
    }

    fn errors(&mut self, parser: Parser<'_>) {
        let here = parser.error("no such thing");
        let there = parser.error_at(parser.prev_span(), format_args!("not {}", 1));
        self.answers.push(&fault(&here));
        self.answers.push(&fault(&there));
    }

    fn peek(&mut self, parser: Parser<'_>) {
        let answer = match self.random.below(14) {
            0 => parser.peek::<LParen>(),
            1 => parser.peek::<RParen>(),
            2 => parser.peek::<u32>(),
            3 => parser.peek::<Id>(),
            4 => parser.peek::<&str>(),
            5 => parser.peek::<kw::func>(),
            6 => parser.peek::<annotation::name>(),
            7 => parser.peek::<ItemRef<kw::func>>(),
            8 => parser.peek2::<LParen>(),
            9 => parser.peek2::<RParen>(),
            10 => parser.peek2::<kw::func>(),
            11 => parser.peek2::<annotation::name>(),
            12 => parser.peek3::<u32>(),
            _ => parser.peek3::<LParen>(),
        };
        self.answer("peek", answer);
    }

    fn lookahead(&mut self, parser: Parser<'_>) {
        let mut lookahead = parser.lookahead1();
        for _ in 0..self.random.below(6) {
            let answer = match self.random.below(6) {
                0 => lookahead.peek::<LParen>(),
                1 => lookahead.peek::<u32>(),
                2 => lookahead.peek::<Id>(),
                3 => lookahead.peek::<kw::module>(),
                4 => lookahead.peek::<&str>(),
                _ => lookahead.peek::<annotation::name>(),
            };
            self.answer("sees", answer);
        }
        self.answers.push(&fault(&lookahead.error()));
    }

    fn parse(&mut self, parser: Parser<'_>) {
        match self.random.below(9) {
            0 => self.answer("parse", parser.parse::<u32>()),
            1 => self.answer("parse", parser.parse::<i64>()),
            2 => self.answer("parse", parser.parse::<&str>()),
            3 => self.answer("parse", parser.parse::<Id>()),
            4 => self.answer("parse", parser.parse::<Option<Index>>()),
            5 => self.answer("parse", parser.parse::<ItemRef<kw::func>>()),
            6 => self.answer("parse", parser.parse::<Option<NameAnnotation>>()),
            7 => self.answer("parse", parser.parse::<kw::module>()),
            _ => self.answer("parse", parser.parse::<(u8, Span)>()),
        }
    }

    /// Steps over up to three tokens; one step in eight returns an error instead.
    fn step(&mut self, parser: Parser<'_>) {
        let tokens = self.random.below(4);
        let is_refused = self.random.is_one_in(8);
        let answer = parser.step(|mut cursor| {
            let mut taken = String::new();
            for _ in 0..tokens {
                let Some((token, next)) = any(cursor)? else {
                    break;
                };
                taken += &token;
                cursor = next;
            }
            if is_refused {
                Err(cursor.error("refused"))
            } else {
                Ok((taken, cursor))
            }
        });
        self.answer("step", answer);
    }

    /// Calls each peek of a cursor, without moving the parser.
    fn looks(&mut self, parser: Parser<'_>) {
        let answer = parser.step(|cursor| {
            let seen = [
                cursor.peek_lparen()?,
                cursor.peek_rparen()?,
                cursor.peek_id()?,
                cursor.peek_reserved()?,
                cursor.peek_keyword()?,
                cursor.peek_integer()?,
                cursor.peek_float()?,
                cursor.peek_string()?,
            ];
            let comment = cursor
                .comment()?
                .map(|(comment, next)| (comment, next.cur_span().offset()));
            let shown = format!("{seen:?} {comment:?} {}", cursor.cur_span().offset());
            Ok((shown, cursor))
        });
        self.answer("looks", answer);
    }

    fn group(&mut self, parser: Parser<'_>, depth: usize) {
        let answer = parser.parens(|inside| {
            self.calls(inside, 5, depth + 1);
            if self.random.is_one_in(2) {
                skip(inside)?;
            }
            Ok(inside.prev_span().offset())
        });
        self.answer("group", answer);
    }
}

/// Consumes the visible token, of any kind. Returns its text, and the cursor after it.
pub fn any(cursor: Cursor<'_>) -> Result<Option<(String, Cursor<'_>)>> {
    if let Some(next) = cursor.lparen()? {
        return Ok(Some(("(".to_owned(), next)));
    }
    if let Some(next) = cursor.rparen()? {
        return Ok(Some((")".to_owned(), next)));
    }
    if let Some((name, next)) = cursor.id()? {
        return Ok(Some((format!("id {name}"), next)));
    }
    if let Some((name, next)) = cursor.annotation()? {
        return Ok(Some((format!("annotation {name}"), next)));
    }
    if let Some((word, next)) = cursor.keyword()? {
        return Ok(Some((format!("keyword {word}"), next)));
    }
    any_value(cursor)
}

fn any_value(cursor: Cursor<'_>) -> Result<Option<(String, Cursor<'_>)>> {
    if let Some((word, next)) = cursor.reserved()? {
        return Ok(Some((format!("reserved {word}"), next)));
    }
    if let Some((integer, next)) = cursor.integer()? {
        return Ok(Some((
            format!("{:?} {:?}", integer.val(), integer.sign()),
            next,
        )));
    }
    if let Some((float, next)) = cursor.float()? {
        return Ok(Some((format!("{float:?}"), next)));
    }
    let string = cursor.string()?;
    Ok(string.map(|(string, next)| (format!("{string:?}"), next)))
}

/// Consumes the rest of a group.
pub fn skip(parser: Parser<'_>) -> Result<()> {
    let mut depth = 0;
    while depth > 0 || !parser.is_empty() {
        depth += parser.step(|cursor| {
            let Some((token, next)) = any(cursor)? else {
                return Err(cursor.error("a group that is not closed"));
            };
            let deeper = isize::from(token == "(") - isize::from(token == ")");
            Ok((deeper, next))
        })?;
    }
    Ok(())
}
