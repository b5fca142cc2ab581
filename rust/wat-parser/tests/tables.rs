//! Values and errors of types, visible tokens, and printed errors.

// Types and texts of a test are defined inside it.
#![allow(clippy::items_after_statements, clippy::format_collect)]

use std::collections::HashSet;
use std::fmt::Debug;
use std::panic::{AssertUnwindSafe, catch_unwind};
use std::path::Path;
use wat_parser::encode::Encode;
use wat_parser::lexer::{LexError, Lexer};
use wat_parser::parser::{self, Cursor, Parse, ParseBuffer, Parser, Peek, Result};
use wat_parser::token::{Id, Index, ItemRef, LParen, NameAnnotation, RParen, Span};
use wat_parser::{Error, annotation, custom_keyword, custom_reserved, gensym, kw};

/// Formats a value, or an error's message and offset.
fn told<T: Debug>(read: Result<T>) -> String {
    match read {
        Ok(value) => format!("{value:?}"),
        Err(error) => format!("{} at {}", error.message(), error.span().offset()),
    }
}

/// Parses a text as a type and formats the result.
macro_rules! read {
    ($type:ty, $text:expr) => {
        match ParseBuffer::new($text) {
            Ok(buffer) => told(parser::parse::<$type>(&buffer)),
            Err(error) => told::<()>(Err(error)),
        }
    };
}

/// Runs statements on a parser of a text and formats their value.
macro_rules! run {
    ($text:expr, |$parser:ident| $body:expr) => {{
        struct Value(String);
        impl<'a> Parse<'a> for Value {
            fn parse($parser: Parser<'a>) -> Result<Self> {
                let value = $body;
                Ok(Value(format!("{value:?}")))
            }
        }
        let buffer = ParseBuffer::new($text).unwrap();
        match parser::parse::<Value>(&buffer) {
            Ok(value) => value.0,
            Err(error) => told::<()>(Err(error)),
        }
    }};
}

#[test]
fn integers() {
    for (text, wanted) in [
        ("0", "0"),
        ("+255", "255"),
        ("0xf_f", "255"),
        ("256", "invalid u8 number: constant out of range at 0"),
        ("-0", "invalid u8 number: constant out of range at 0"),
        (" 1.0", "expected a u8 at 1"),
        ("", "expected a u8 at 0"),
        ("1 2", "extra tokens remaining after parse at 2"),
        ("1 \"", "unexpected end-of-file at 3"),
    ] {
        assert_eq!(read!(u8, text), wanted, "{text}");
    }
    for (text, wanted) in [
        ("-128", "-128"),
        ("-0x80", "-128"),
        ("255", "-1"),
        ("-0", "0"),
        ("-129", "invalid i8 number: constant out of range at 0"),
        ("256", "invalid i8 number: constant out of range at 0"),
    ] {
        assert_eq!(read!(i8, text), wanted, "{text}");
    }
    assert_eq!(read!(u16, "65535"), "65535");
    assert_eq!(read!(i16, "0xffff"), "-1");
    assert_eq!(read!(u32, "4_294_967_295"), "4294967295");
    assert_eq!(read!(i32, "4294967295"), "-1");
    assert_eq!(
        read!(i32, "-2147483649"),
        "invalid i32 number: constant out of range at 0"
    );
    assert_eq!(read!(u64, "18446744073709551615"), "18446744073709551615");
    assert_eq!(
        read!(u64, "18446744073709551616"),
        "invalid u64 number: constant out of range at 0"
    );
    assert_eq!(read!(i64, "0xffff_ffff_ffff_ffff"), "-1");
    assert_eq!(read!(i64, "-9223372036854775808"), "-9223372036854775808");
    assert_eq!(read!((u32, Span), " 7"), "(7, Span { offset: 1 })");
}

#[test]
fn strings_and_names() {
    assert_eq!(read!(&[u8], r#""a\ff""#), "[97, 255]");
    assert_eq!(read!(&str, r#""a\u{e9}""#), "\"a\u{e9}\"");
    assert_eq!(read!(&str, r#" "\ff" "#), "malformed UTF-8 encoding at 6");
    assert_eq!(read!(String, r#""x""#), "\"x\"");
    assert_eq!(read!(&str, "x"), "expected a string at 0");
    assert_eq!(read!(Id, "$x"), "\"x\"");
    assert_eq!(read!(Id, r#"$"\61 b""#), "\"a b\"");
    assert_eq!(read!(Id, "$"), "empty identifier at 0");
    assert_eq!(
        read!(Id, r#" $"\ff""#),
        "malformed UTF-8 encoding of string-based id at 1"
    );
    assert_eq!(read!(Id, "x"), "expected an identifier at 0");
    assert_eq!(read!(Index, "7"), "Num(7, Span { offset: 0 })");
    assert_eq!(read!(Index, "$a"), "Id(\"a\")");
    assert_eq!(
        read!(Index, "x"),
        "unexpected token, expected an index or an identifier at 0"
    );
    assert_eq!(read!(Option<Id>, ""), "None");
    assert_eq!(read!(Box<u32>, "4"), "4");
    assert!(
        read!(ItemRef<kw::func>, "(func 1)")
            .starts_with("ItemRef { kind: func(Span { offset: 1 }), idx: Num(1,")
    );
    assert_eq!(
        read!(Option<ItemRef<kw::func>>, "(table 1)"),
        "extra tokens remaining after parse at 0"
    );
}

/// Checks that many strings with escapes stay valid while others are parsed.
#[test]
fn strings_with_escapes_stay() {
    let text: String = (0..1000).map(|n| format!(r#""\u{{e9}}{n}" "#)).collect();
    let all = run!(&text, |parser| {
        let mut strings: Vec<&str> = Vec::new();
        while !parser.is_empty() {
            strings.push(parser.parse()?);
        }
        strings
    });
    let wanted: Vec<String> = (0..1000).map(|n| format!("\u{e9}{n}")).collect();
    assert_eq!(all, format!("{wanted:?}"));
}

mod words {
    wat_parser::custom_keyword!(cursor);
}

custom_keyword!(parser_ = "parser");
custom_reserved!(spaceship = "<=>");
annotation!(note);

#[test]
fn words() {
    assert_eq!(
        read!(words::cursor, " cursor"),
        "cursor(Span { offset: 1 })"
    );
    assert_eq!(read!(parser_, "parsers"), "expected keyword `parser` at 0");
    assert_eq!(read!(parser_, "$parser"), "expected keyword `parser` at 0");
    assert_eq!(read!(spaceship, "<=>"), "spaceship(Span { offset: 0 })");
    assert_eq!(
        read!(spaceship, "<=="),
        "expected reserved symbol `<=>` at 0"
    );
    assert_eq!(read!(note, "@note"), "note(Span { offset: 0 })");
    assert_eq!(read!(note, r#"@"n\6fte""#), "note(Span { offset: 0 })");
    assert_eq!(read!(note, "@name"), "expected annotation `@note` at 0");
    assert_eq!(
        (
            spaceship::display(),
            note::display(),
            words::cursor::display()
        ),
        ("`<=>`", "`@note`", "`cursor`")
    );
    assert_eq!(
        (kw::r#if::display(), kw::true_::display()),
        ("`if`", "`true`")
    );
    assert_eq!(annotation::dylink_0::display(), "`@dylink.0`");
}

#[test]
fn looks() {
    let looks = run!("(a $b) @c <=> 1 2.5 \"s\"", |parser| {
        let seen = (
            parser.peek::<LParen>()?,
            parser.peek2::<RParen>()?,
            parser.peek3::<Id>()?,
            parser.peek3::<u32>()?,
        );
        parser.parens(|group| {
            group.step(|at| Ok(((), at.keyword()?.unwrap().1)))?;
            group.parse::<Id>()
        })?;
        parser.step(|at| {
            let (name, at) = at.annotation()?.unwrap();
            let (reserved, at) = at.reserved()?.unwrap();
            assert!(at.peek_integer()? && !at.peek_float()? && !at.peek_rparen()?);
            let (integer, at) = at.integer()?.unwrap();
            assert!(at.peek_float()? && at.float()?.is_some() && at.lparen()?.is_none());
            let at = at.float()?.unwrap().1;
            assert!(at.peek_string()? && at.id()?.is_none() && at.rparen()?.is_none());
            Ok((
                (seen, name, reserved, integer.val().0.to_owned()),
                at.string()?.unwrap().1,
            ))
        })?
    });
    assert_eq!(looks, r#"((true, false, true, false), "c", "<=>", "1")"#);
}

custom_keyword!(a);

#[test]
fn lookaheads() {
    // Peeks at as many types as there are spaces before the token.
    let looked_for = |text: &str| {
        run!(text, |parser| {
            let blanks = parser.cur_span().offset();
            let mut look = parser.lookahead1();
            let seen = blanks > 0 && look.peek::<a>()?
                || blanks > 1 && look.peek::<Id>()?
                || blanks > 2 && look.peek::<u32>()?;
            assert!(!seen && look.parser().peek::<a>().is_ok());
            Err::<(), _>(look.error())?;
        })
    };
    for (text, wanted) in [
        ("", "unexpected end of input at 0"),
        ("u", "unexpected token at 0"),
        (" u", "unexpected token, expected `a` at 1"),
        (
            "  u",
            "unexpected token, expected `a` or an identifier at 2",
        ),
        (
            "   u",
            "unexpected token, expected one of: `a`, an identifier, u32 at 3",
        ),
    ] {
        assert_eq!(looked_for(text), wanted);
    }
}

#[test]
fn groups() {
    let nested = |text: &str| {
        run!(text, |parser| {
            let inside = parser.parens(|group| Ok((group.parens_depth(), group.parse::<u32>()?)));
            let before = (
                parser.parens_depth(),
                parser.cur_span().offset(),
                parser.prev_span().offset(),
            );
            (told(inside), before)
        })
    };
    assert_eq!(nested("(1)"), r#"("(1, 1)", (0, 3, 3))"#);
    assert_eq!(nested(""), r#"("expected `(` at 0", (0, 0, 0))"#);
    // The parser's position is restored if parsing the group fails.
    assert_eq!(nested(" (1"), "extra tokens remaining after parse at 1");
    let deep = |depth: usize| {
        fn inner(parser: Parser<'_>) -> Result<()> {
            parser.depth_check()?;
            if parser.is_empty() {
                Ok(())
            } else {
                parser.parens(inner)
            }
        }
        let text = "(".repeat(depth) + &")".repeat(depth);
        run!(&text, |parser| inner(parser)?)
    };
    assert_eq!(deep(100), "()");
    assert_eq!(deep(101), "item nesting too deep at 101");
}

/// Checks that visibility depends on the names that are registered at the time of the peek.
#[test]
fn names() {
    let shown = |text: &str| {
        run!(text, |parser| {
            let before = parser.cur_span().offset();
            let first = parser.register_annotation("note");
            let registered = parser.cur_span().offset();
            let again = parser.register_annotation("note");
            drop(first);
            let twice = parser.cur_span().offset();
            drop(again);
            let truncate_on_error = parser.cur_span().offset();
            parser.parse::<Option<u32>>()?;
            (before, registered, twice, truncate_on_error)
        })
    };
    assert_eq!(shown("(@note 1) 2"), "(10, 0, 0, 10)");
    assert_eq!(shown(r#"(@"n\6fte" 1) 2"#), "(14, 0, 0, 14)");
    assert_eq!(shown("(@other (@note)) 2"), "(17, 17, 17, 17)");
    let noted = run!("1 (@note 1) 2", |parser| {
        parser.parse::<u32>()?;
        let _registered = parser.register_annotation("note");
        let number =
            parser.parens(|group| group.parse::<note>().and_then(|_| group.parse::<u32>()))?;
        (number, parser.parse::<u32>()?)
    });
    assert_eq!(noted, "(1, 2)");
}

/// Checks the peeks in each sequence of 6 calls that register one of two names, drop a guard of one of them, or peek.
#[test]
fn a_name_is_registered_until_its_guards_are_dropped() {
    let number = run!("(@a) (@b) 1", |parser| {
        for sequence in 0..5_usize.pow(6) {
            let mut guards = [Vec::new(), Vec::new()];
            for turn in 0..6 {
                match sequence / 5_usize.pow(turn) % 5 {
                    name @ 0..2 => guards[name].push(parser.register_annotation(["a", "b"][name])),
                    name @ 2..4 => drop(guards[name - 2].pop()),
                    _ => {
                        let wanted = match guards.each_ref().map(Vec::is_empty) {
                            [false, _] => 0,
                            [true, false] => 5,
                            [true, true] => 10,
                        };
                        let shown = parser.cur_span().offset();
                        assert_eq!(shown, wanted, "sequence {sequence}, turn {turn}");
                    }
                }
            }
        }
        parser.parse::<u32>()?
    });
    assert_eq!(number, "1");
}

/// Offsets of the next token, while a name is registered and unregistered.
struct Shown(Vec<usize>);

impl<'a> Parse<'a> for Shown {
    fn parse(parser: Parser<'a>) -> Result<Self> {
        parser.parse::<u32>()?;
        let shown = || parser.cur_span().offset();
        let mut places = vec![shown()];
        let registered = parser.register_annotation("note");
        places.push(shown());
        // A failed group restores the position.
        let refused = parser.parens(|group| Err::<(), _>(group.error("refused")));
        places.push(refused.unwrap_err().span().offset());
        places.push(shown());
        drop(registered);
        places.push(shown());
        // The cursor was created before the name is registered.
        parser.step(|cursor| {
            let _registered = parser.register_annotation("note");
            places.push(cursor.cur_span().offset());
            Ok(((), cursor))
        })?;
        parser.parens(wat_parser::parser::Parser::parse::<u32>)?;
        // No token is visible at the end of the text, so none is kept.
        let _registered = parser.register_annotation("note");
        places.push(shown());
        parser.parens(wat_parser::parser::Parser::parse::<note>)?;
        Ok(Shown(places))
    }
}

#[test]
fn what_is_shown_stays_shown_where_that_is_set() {
    let mut buffer = ParseBuffer::new("0 (@note 1) (2) (@note)").unwrap();
    let Shown(places) = parser::parse(&buffer).unwrap();
    assert_eq!(places, [12, 2, 3, 2, 12, 2, 16]);
    buffer = ParseBuffer::new("0 (@note 1) (2) (@note)").unwrap();
    buffer.keep_shown(true);
    let Shown(places) = parser::parse(&buffer).unwrap();
    assert_eq!(places, [12, 12, 13, 12, 12, 12, 16]);
    buffer = ParseBuffer::new("0 (@note 1) (2) (@note)").unwrap();
    buffer.keep_shown(true).keep_shown(false);
    assert_eq!(parser::parse::<Shown>(&buffer).unwrap().0[1], 2);
}

#[test]
fn annotations_at_fault() {
    for (text, wanted) in [
        ("(@foo", "unclosed annotation at 1"),
        ("(@foo \"", "unexpected end-of-file at 7"),
        ("(@)", "empty annotation id at 1"),
        (
            r#"(@"\ff")"#,
            "malformed UTF-8 encoding of string-based id at 1",
        ),
    ] {
        let text: &str = text;
        assert_eq!(run!(text, |parser| parser.is_empty()), wanted);
    }
}

#[test]
fn name_annotations() {
    let name = |text: &str| {
        run!(text, |parser| parser.with_standard_annotations_registered(
            wat_parser::parser::Parser::parse::<Option<NameAnnotation>>
        )?)
    };
    assert_eq!(
        name("(@name \"x\")"),
        "Some(NameAnnotation { name: \"x\" })"
    );
    assert_eq!(name("(@name 1)"), "expected a string at 7");
    assert_eq!(name("(@note)"), "None");
}

#[test]
fn comments() {
    fn all(mut cursor: Cursor<'_>) -> Result<(Vec<&str>, Cursor<'_>)> {
        let mut comments = Vec::new();
        while let Some((comment, rest)) = cursor.comment()? {
            comments.push(comment);
            cursor = rest;
        }
        Ok((comments, cursor))
    }
    let text = " ;; a\n(; b (; c ;) ;)(@x);; d\n1 ;; e";
    let read = run!(text, |parser| {
        let before = parser.step(all)?;
        let at = (parser.prev_span().offset(), parser.cur_span().offset());
        parser.parse::<u32>()?;
        (before, at, parser.step(all)?)
    });
    assert_eq!(read, r#"([";; a", "(; b (; c ;) ;)"], (21, 30), [";; e"])"#);
    for (text, wanted) in [
        ("(;", "unterminated block comment at 0"),
        ("  (;", "unterminated block comment at 2"),
    ] {
        let text: &str = text;
        assert_eq!(run!(text, |parser| parser.step(all)?), wanted);
    }
}

#[test]
fn buffers() {
    let buffer = ParseBuffer::new("(; ;)  ;; \n").unwrap();
    struct Blank(bool, bool);
    impl Parse<'_> for Blank {
        fn parse(parser: Parser<'_>) -> Result<Self> {
            Ok(Blank(
                parser.has_meaningful_tokens(),
                parser.track_instr_spans(),
            ))
        }
    }
    assert!(matches!(parser::parse(&buffer), Ok(Blank(false, false))));
    let mut lexer = Lexer::new("\"\u{202e}\"");
    assert_eq!(
        read!(&str, "\"\u{202e}\""),
        "likely-confusing unicode character found '\\u{202e}' at 1"
    );
    lexer.allow_confusing_unicode(true);
    let mut buffer = ParseBuffer::new_with_lexer(lexer).unwrap();
    buffer.track_instr_spans(true);
    assert_eq!(parser::parse::<&str>(&buffer).unwrap(), "\u{202e}");
    // Short tokens need more rows than one call fills.
    for count in [1, 20, 21, 1000, 4097] {
        let text = "(".repeat(count) + &")".repeat(count);
        let groups = run!(&text, |parser| {
            let (mut opened, mut closed) = (0, 0);
            parser.step(|mut cursor| {
                while let Some(rest) = cursor.lparen()? {
                    (cursor, opened) = (rest, opened + 1);
                }
                while let Some(rest) = cursor.rparen()? {
                    (cursor, closed) = (rest, closed + 1);
                }
                Ok(((), cursor))
            })?;
            (opened, closed)
        });
        assert_eq!(groups, format!("({count}, {count})"));
    }
}

#[cfg(target_pointer_width = "64")]
#[test]
#[ignore = "takes 4 GiB"]
fn a_text_of_4_gib_is_refused() {
    let text = String::from_utf8(vec![0; 1 << 32]).unwrap();
    let message = "the text has more than 4294967295 bytes";
    let error = ParseBuffer::new(&text).unwrap_err();
    assert_eq!(error.to_string(), format!("{message} at byte offset 0"));
    let lexer = Lexer::new(&text);
    assert_eq!(lexer.parse(&mut 0).unwrap_err().message(), message);
    assert_eq!(lexer.iter(0).map(Result::unwrap_err).count(), 1);
    assert_eq!(Span::from_offset(1 << 31).linecol_in(&text), (0, 1 << 31));
}

/// Checks that a buffer can be created on one thread and read on another.
#[test]
fn a_buffer_is_sent() {
    let buffer = ParseBuffer::new("(@\"\\61\") \"a\\62\"").unwrap();
    let read = std::thread::spawn(move || parser::parse::<&str>(&buffer).unwrap().to_owned());
    assert_eq!(read.join().unwrap(), "ab");
}

/// Borrows a buffer for a shorter lifetime than that of its text.
fn lent(buffer: &ParseBuffer<'static>) -> u32 {
    parser::parse(buffer).unwrap()
}

#[test]
fn errors() {
    let buffer = ParseBuffer::new("7").unwrap();
    assert_eq!(lent(&buffer), 7);

    let error = |text| parser::parse::<u32>(&ParseBuffer::new(text).unwrap()).unwrap_err();
    let mut wrong = error(" 1\n\t-x");
    assert_eq!(
        wrong.to_string(),
        "extra tokens remaining after parse\n     --> <anon>:2:2\n      |\n    2 |     -x\n      |  ^"
    );
    wrong.set_path(Path::new("a.wat"));
    wrong.set_text("another");
    assert!(wrong.to_string().contains("--> a.wat:2:2\n"));
    assert!(wrong.lex_error().is_none());
    assert_eq!(
        error("1 (; ").lex_error(),
        Some(&LexError::DanglingBlockComment)
    );
    let unclosed = error("(@a");
    assert_eq!(unclosed.to_string(), "unclosed annotation at byte offset 1");
    let boxed: Box<dyn std::error::Error> = Box::new(Error::new(Span::from_offset(4), "x".into()));
    assert_eq!(boxed.to_string(), "x at byte offset 4");
}

#[test]
fn identifiers() {
    let at = Span::from_offset;
    gensym::reset();
    let (first, second) = (gensym::generate(at(1)), gensym::generate(at(1)));
    assert!(first != second && first != Id::new("gensym", at(1)) && first.is_gensym());
    let mut slot = None;
    assert_eq!(gensym::fill(at(2), &mut slot), slot.unwrap());
    assert_eq!(gensym::fill(at(3), &mut slot).span(), at(2));
    assert_eq!(
        format!("{second:?} {:?}", Id::new("a\"", at(0))),
        r#"Id { generation: 2 } "a\"""#
    );
    let indices: HashSet<Index> = [
        Index::Num(1, at(0)),
        Index::Num(1, at(9)),
        Id::new("a", at(0)).into(),
        Id::new("a", at(1)).into(),
    ]
    .into();
    assert_eq!(indices.len(), 2);
    assert!(Index::Num(1, at(0)).is_resolved() && Index::from(first).span() == at(1));
}

#[test]
fn bytes() {
    let encoded = |value: &dyn Fn(&mut Vec<u8>)| {
        let mut bytes = vec![9];
        value(&mut bytes);
        bytes.split_off(1)
    };
    for (value, wanted) in [
        (0u64, &[0][..]),
        (127, &[0x7f]),
        (128, &[0x80, 1]),
        (u64::MAX, &[255, 255, 255, 255, 255, 255, 255, 255, 255, 1]),
    ] {
        assert_eq!(encoded(&|bytes| value.encode(bytes)), wanted);
    }
    for (value, wanted) in [
        (0i64, &[0][..]),
        (63, &[0x3f]),
        (64, &[0xc0, 0]),
        (-64, &[0x40]),
        (-65, &[0xbf, 0x7f]),
        (
            i64::MIN,
            &[128, 128, 128, 128, 128, 128, 128, 128, 128, 127],
        ),
    ] {
        assert_eq!(encoded(&|bytes| value.encode(bytes)), wanted);
    }
    assert_eq!(
        encoded(&|bytes| (-1i32, u32::MAX, 200u8).encode(bytes)),
        [0x7f, 255, 255, 255, 255, 15, 200]
    );
    assert_eq!(
        encoded(&|bytes| ("ab", Box::new(vec![1u8, 2])).encode(bytes)),
        [2, b'a', b'b', 2, 1, 2]
    );
    #[cfg(target_pointer_width = "64")]
    assert!(catch_unwind(|| (u32::MAX as usize + 1).encode(&mut Vec::new())).is_err());
}

#[test]
fn a_group_stays_open_after_a_caught_panic() {
    struct Groups;
    impl<'a> Parse<'a> for Groups {
        fn parse(parser: Parser<'a>) -> Result<Self> {
            let panics = || {
                parser.parens(|group| -> Result<()> {
                    group.parse::<u32>()?;
                    panic!("a closure may panic")
                })
            };
            assert!(catch_unwind(AssertUnwindSafe(panics)).is_err());
            assert_eq!((parser.parens_depth(), parser.parse::<u32>()?), (1, 2));
            let depth = parser.parens(|group| group.parse::<u32>().map(|_| group.parens_depth()));
            assert_eq!((depth?, parser.parens_depth()), (2, 1));
            Ok(Groups)
        }
    }
    let buffer = ParseBuffer::new("(1 2 (3)").unwrap();
    assert!(parser::parse::<Groups>(&buffer).is_ok());
}
