// The random calls, included once for each layer.

use super::{NAMES, below, note, note_cause, note_value};
use layer::kw;
use layer::lexer::Lexer;
use layer::parser::{self, Cursor, Parse, ParseBuffer, Parser, Result};
use layer::token::{F32, F64, Id, Index, ItemRef, LParen, NameAnnotation, RParen, Span};

mod words {
    use super::layer;
    // Needed by `custom_reserved!` of one layer.
    #[allow(unused_imports)]
    use super::layer::parser::Result;
    layer::custom_keyword!(in_line = "in-line");
    layer::custom_reserved!(spaceship = "<=>");
    layer::annotation!(note_a = "a");
    layer::annotation!(note_xy = "x y");
}

struct Play;

impl<'a> Parse<'a> for Play {
    fn parse(parser: Parser<'a>) -> Result<Self> {
        calls(parser, 40, 0).map(|()| Play)
    }
}

pub fn play(text: &str, allow: bool, set: impl Fn(&mut ParseBuffer<'_>)) {
    let mut lexer = Lexer::new(text);
    lexer.allow_confusing_unicode(allow);
    let mut buffer = ParseBuffer::new_with_lexer(lexer).unwrap();
    set(&mut buffer);
    tell(parser::parse::<Play>(&buffer).map(|_| ()));
}

fn tell<T: std::fmt::Debug>(answer: Result<T>) {
    match answer {
        Ok(value) => note_value(value),
        Err(error) => {
            note(format_args!("{} {}", error.span().offset(), error.message()));
            note_cause(error.lex_error());
            note(error);
        }
    }
}

fn calls(parser: Parser<'_>, count: usize, depth: usize) -> Result<()> {
    let mut registered = Vec::new();
    for _ in 0..count {
        note_value((parser.prev_span(), parser.cur_span(), parser.is_empty(), parser.parens_depth()));
        match below(16) {
            0..=4 => take(parser),
            5 | 6 => look(parser),
            7 => number(parser),
            8 => word(parser),
            9 | 10 => registered.push(parser.register_annotation(NAMES[below(NAMES.len())])),
            11 if !registered.is_empty() => drop(registered.remove(below(registered.len()))),
            12 | 13 if depth < 6 => tell(group(parser, depth + 1)),
            14 => errors(parser),
            15 if depth > 0 && below(3) == 0 => return Err(parser.error("left")),
            _ => {}
        }
    }
    Ok(())
}

/// Consumes a token with a cursor's method, and notes its value and the position after it.
macro_rules! take {
    ($parser:ident, $taker:ident, $value:ident => $found:expr) => {
        tell($parser.step(|cursor| {
            Ok(match cursor.$taker()? {
                Some(($value, rest)) => (Some(($found, rest.cur_span())), rest),
                None => (None, cursor),
            })
        }))
    };
    ($parser:ident, $taker:ident) => {
        tell($parser.step(|cursor| {
            Ok(match cursor.$taker()? {
                Some(rest) => (Some(rest.cur_span()), rest),
                None => (None, cursor),
            })
        }))
    };
}

fn take(parser: Parser<'_>) {
    match below(12) {
        0 => take!(parser, lparen),
        1 => take!(parser, rparen),
        2 => take!(parser, id, name => name),
        3 => take!(parser, keyword, word => word),
        4 => take!(parser, annotation, name => name),
        5 => take!(parser, reserved, word => word),
        6 => take!(parser, integer, number => (number.sign(), number.val().0.to_owned(), number.val().1)),
        7 => take!(parser, float, number => format!("{number:?}")),
        8 => take!(parser, string, bytes => bytes),
        9 | 10 => take!(parser, comment, comment => comment),
        _ => tell(parser.step(|cursor| Err::<((), Cursor<'_>), _>(cursor.error("not taken")))),
    }
}

/// Notes the results of peeks for each of the types, at the first, second or third token.
macro_rules! look {
    ($parser:ident, $look:ident: $($type:ty),*) => {
        tell((|| Ok([$($parser.$look::<$type>()?),*]))())
    };
}

fn look(parser: Parser<'_>) {
    match below(6) {
        0 => look!(parser, peek: LParen, RParen, Id, u32, &str, Index, kw::func, words::in_line, words::note_a, words::spaceship),
        1 => look!(parser, peek2: LParen, RParen, i64, &[u8], Index, kw::func, words::note_a, words::note_xy, ItemRef<'_, kw::func>),
        2 => look!(parser, peek3: LParen, RParen, Id, u8, Index, kw::func, words::note_xy, words::spaceship),
        3 => look!(parser, peek: ItemRef<'_, kw::func>, words::note_xy),
        _ => tell(parser.step(|cursor| {
            let kinds = [
                cursor.peek_lparen()?,
                cursor.peek_rparen()?,
                cursor.peek_id()?,
                cursor.peek_reserved()?,
                cursor.peek_keyword()?,
                cursor.peek_integer()?,
                cursor.peek_float()?,
                cursor.peek_string()?,
            ];
            Ok((kinds, cursor))
        })),
    }
}

fn number(parser: Parser<'_>) {
    match below(10) {
        0 => tell(parser.parse::<u8>()),
        1 => tell(parser.parse::<i8>()),
        2 => tell(parser.parse::<u16>()),
        3 => tell(parser.parse::<i16>()),
        4 => tell(parser.parse::<u32>()),
        5 => tell(parser.parse::<(i32, Span)>()),
        6 => tell(parser.parse::<u64>()),
        7 => tell(parser.parse::<i64>()),
        8 => tell(parser.parse::<F32>()),
        _ => tell(parser.parse::<F64>()),
    }
}

fn word(parser: Parser<'_>) {
    match below(14) {
        0 => tell(parser.parse::<&[u8]>()),
        1 => tell(parser.parse::<&str>()),
        2 => tell(parser.parse::<String>()),
        3 => tell(parser.parse::<Id>()),
        4 => tell(parser.parse::<Index>()),
        5 => tell(parser.parse::<Option<Id>>()),
        6 => tell(parser.parse::<Box<u32>>()),
        7 => tell(parser.parse::<ItemRef<kw::func>>()),
        8 => tell(parser.parse::<Option<NameAnnotation>>()),
        9 => tell(parser.parse::<kw::func>()),
        10 => tell(parser.parse::<words::in_line>()),
        11 => tell(parser.parse::<words::spaceship>()),
        12 => tell(parser.parse::<words::note_a>()),
        _ => tell(parser.parse::<words::note_xy>()),
    }
}

/// Makes a few calls in a group, and in two of three cases consumes the words that they leave.
fn group(parser: Parser<'_>, depth: usize) -> Result<Span> {
    let (count, rest) = (below(8), below(3) > 0);
    parser.parens(|inside| {
        calls(inside, count, depth)?;
        while rest && !inside.is_empty() && inside.step(past_word)? {}
        Ok(inside.cur_span())
    })
}

/// Consumes a keyword, a string or an integer. Returns the cursor after it, and whether there was one.
fn past_word(cursor: Cursor<'_>) -> Result<(bool, Cursor<'_>)> {
    let after = match cursor.keyword()? {
        Some((_, rest)) => Some(rest),
        None => match cursor.string()? {
            Some((_, rest)) => Some(rest),
            None => cursor.integer()?.map(|(_, rest)| rest),
        },
    };
    Ok(after.map_or((false, cursor), |rest| (true, rest)))
}

fn errors(parser: Parser<'_>) {
    match below(3) {
        0 => tell::<()>(Err(parser.error("of two\nlines"))),
        1 => tell::<()>(Err(parser.error_at(Span::from_offset(below(80)), "anywhere"))),
        _ => {
            let (mut look, count) = (parser.lookahead1(), below(4));
            for number in 0..count {
                tell(match number {
                    0 => look.peek::<u32>(),
                    1 => look.peek::<Id>(),
                    _ => look.peek::<kw::func>(),
                });
            }
            tell::<()>(Err(look.error()));
        }
    }
}
