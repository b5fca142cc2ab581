//! Allocation-failure injection in the layer: every function that returns a `Result` returns an error.

#[path = "../../wat-lex/tests/refusing/mod.rs"]
mod refusing;

use refusing::{granting, without_memory};
use std::cell::RefCell;
use wat_parser::parser::{self, Cursor, Lookahead1, Parse, ParseBuffer, Parser, Result};
use wat_parser::token::{F64, Id, Index, LParen};
use wat_parser::{annotation, custom_keyword, custom_reserved, kw};

custom_reserved!(arrow = "=>");
custom_keyword!(in_line = "in-line");
annotation!(note);

type Call = for<'a> fn(Parser<'a>) -> Result<()>;

thread_local! {
    /// The call to run and the number of allocations that succeed; then the result and the number of allocations.
    static ASKED: RefCell<Option<(Call, usize)>> = const { RefCell::new(None) };
    static ANSWERED: RefCell<Option<(Result<()>, usize)>> = const { RefCell::new(None) };
}

/// A type whose `parse` runs the call.
struct Asking;

impl<'a> Parse<'a> for Asking {
    fn parse(parser: Parser<'a>) -> Result<Self> {
        let (call, granted) = ASKED.take().expect("a call");
        ANSWERED.set(Some(granting(granted, || call(parser))));
        Ok(Asking)
    }
}

/// Runs a call at the start of a text with `granted` successful allocations. Returns its result and the number of allocations.
fn asked(text: &str, call: Call, granted: usize) -> (Result<()>, usize) {
    let buffer = ParseBuffer::new(text).unwrap();
    ASKED.set(Some((call, granted)));
    // Most calls do not consume all tokens.
    let _left = parser::parse::<Asking>(&buffer);
    ANSWERED.take().expect("an answer")
}

/// Lets each allocation of a call fail in turn, and returns their number.
fn refused_in_turn(text: &str, call: Call) -> usize {
    let mut granted = 0;
    loop {
        let (answer, asked) = asked(text, call, granted);
        if asked <= granted {
            return granted;
        }
        let error = answer.expect_err("a refused request is an error");
        assert!(error.is_out_of_memory(), "{text}: {granted}: {error}");
        granted += 1;
    }
}

#[test]
fn a_buffer_and_looks_take_no_memory() {
    let text = "(@\"n\\6fte\" (@b)) (module \"a\\nb\" 1) \"\\q\"";
    let (buffer, requests) = granting(0, || ParseBuffer::new(text));
    assert!(buffer.is_ok());
    assert_eq!(requests, 0);
    // A name with an escape is compared with a registered one.
    let register: Call = |parser| {
        drop(parser.register_annotation("other"));
        Ok(())
    };
    let look: Call = |parser| {
        let _registered = parser.register_annotation("other");
        assert!(parser.peek::<LParen>()? && parser.peek2::<kw::module>()?);
        Ok(())
    };
    let registering = asked(text, register, usize::MAX).1;
    assert_eq!(asked(text, look, usize::MAX).1, registering);
}

#[test]
fn a_value_and_an_error_are_refused() {
    let calls: [(&str, Call); 19] = [
        ("\"a\\62\"", |parser| parser.parse::<&[u8]>().map(drop)),
        ("\"a\\62\"", |parser| parser.parse::<&str>().map(drop)),
        ("$\"a\\62\"", |parser| parser.parse::<Id>().map(drop)),
        ("$\"a\\62\"", |parser| parser.parse::<Index>().map(drop)),
        ("1_000", |parser| {
            parser.step(|cursor| Ok((cursor.integer()?.is_some(), cursor)))?;
            Ok(())
        }),
        ("1_0.5_0e1_0", |parser| {
            parser.step(|cursor| Ok((cursor.float()?.is_some(), cursor)))?;
            Ok(())
        }),
        ("x", |parser| parser.parse::<u32>().map(drop)),
        ("256", |parser| parser.parse::<u8>().map(drop)),
        ("x", |parser| parser.parse::<Id>().map(drop)),
        ("$", |parser| parser.parse::<Id>().map(drop)),
        ("x", |parser| parser.parse::<in_line>().map(drop)),
        ("x", |parser| parser.parse::<arrow>().map(drop)),
        ("x", |parser| parser.parse::<note>().map(drop)),
        ("x", |parser| {
            parser
                .parens(wat_parser::parser::Parser::parse::<u32>)
                .map(drop)
        }),
        ("(x)", |parser| {
            parser
                .parens(wat_parser::parser::Parser::parse::<u32>)
                .map(drop)
        }),
        ("\"\\q\"", |parser| parser.peek::<LParen>().map(drop)),
        ("1_0.5", |parser| parser.parse::<F64>().map(drop)),
        ("x", |parser| many_looks(parser).map(drop)),
        ("x", |parser| Err(many_looks(parser)?.error())),
    ];
    for (number, (text, call)) in calls.into_iter().enumerate() {
        assert!(refused_in_turn(text, call) > 0, "{number}");
    }
}

/// Peeks at more types than a lookahead stores without an allocation.
fn many_looks(parser: Parser<'_>) -> Result<Lookahead1<'_>> {
    let mut look = parser.lookahead1();
    for _ in 0..12 {
        look.peek::<kw::func>()?;
    }
    Ok(look)
}

#[test]
fn what_is_plain_takes_no_memory() {
    let text = "(func $a \"b\" 1_0 -0x2 1.5 -2.5e1) (; c ;) => (@note) in-line";
    let plain: Call = |parser| {
        parser.parens(|group| {
            group.parse::<kw::func>()?;
            group.parse::<Id>()?;
            group.parse::<&str>()?;
            let mut look = group.lookahead1();
            assert!(!look.peek::<Id>()? && look.peek::<u8>()?);
            group.parse::<u8>()?;
            group.parse::<i64>()?;
            assert!(!group.is_empty() && group.peek2::<LParen>().is_ok_and(|seen| !seen));
            group.step(|cursor| Ok(((), cursor.float()?.expect("a float").1)))?;
            group.parse::<F64>()
        })?;
        parser.step(|cursor: Cursor<'_>| Ok(((), cursor.comment()?.expect("a comment").1)))?;
        parser.parse::<arrow>()?;
        parser.parse::<in_line>().map(drop)
    };
    let (answer, asked) = asked(text, plain, 0);
    assert_eq!(
        (answer.map_err(|error| error.to_string()), asked),
        (Ok(()), 0)
    );
    let buffer = ParseBuffer::new("1").unwrap();
    assert_eq!(without_memory(|| parser::parse::<u32>(&buffer).unwrap()), 1);
}

/// Checks that a name is unregistered, and that no earlier peek is kept, if the allocation that defers its unregistration fails.
#[test]
fn a_name_is_unregistered_without_memory() {
    let text = "(@note) x";
    let registers: Call = |parser| {
        drop(parser.register_annotation("note"));
        Ok(())
    };
    let peeks: Call = |parser| {
        let registered = parser.register_annotation("note");
        assert!(parser.peek::<LParen>()?);
        drop(registered);
        assert!(!parser.peek::<LParen>()?);
        Ok(())
    };
    let most = asked(text, registers, usize::MAX).1;
    for granted in [most, most - 1] {
        let (answer, asked) = asked(text, peeks, granted);
        assert!(answer.is_ok(), "{granted}");
        assert_eq!(asked, most, "{granted}");
    }
}

fn peeks<const N: usize>(parser: Parser<'_>) -> Result<()> {
    let _registered = parser.register_annotation("note");
    for _ in 0..N {
        assert!(parser.peek2::<LParen>()? && parser.peek3::<note>()?);
    }
    Ok(())
}

/// Consumes all keywords with a cursor and leaves the parser's position.
fn walks<const N: usize>(parser: Parser<'_>) -> Result<()> {
    for _ in 0..N {
        parser.step(|cursor| {
            let mut end = cursor;
            while let Some((_, next)) = end.keyword()? {
                end = next;
            }
            Ok(((), cursor))
        })?;
    }
    Ok(())
}

/// Checks that tokens that stay visible are stored once, however often a cursor reaches them.
#[test]
fn kept_tokens_are_stored_once() {
    let cases: [(&str, [Call; 2]); 2] = [
        ("x (@note b) c", [peeks::<1>, peeks::<10_000>]),
        ("a (@b) c (@b) d", [walks::<1>, walks::<10_000>]),
    ];
    for (text, calls) in cases {
        let [once, often] = calls.map(|call| {
            let mut buffer = ParseBuffer::new(text).unwrap();
            buffer.keep_shown(true);
            ASKED.set(Some((call, usize::MAX)));
            // The calls do not consume all tokens.
            let _left = parser::parse::<Asking>(&buffer);
            ANSWERED.take().expect("an answer").1
        });
        assert_eq!(often, once, "{text}");
    }
}
