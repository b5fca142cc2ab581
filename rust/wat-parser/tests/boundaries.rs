//! Results at the bounds of integers, positions, lists and kept tokens, of types that differ in a late byte, and of settings that are reset.

// Types of a test are defined inside it.
#![allow(clippy::items_after_statements)]

use std::collections::HashSet;
use std::fmt::Debug;
use std::thread;
use wat_parser::encode::Encode;
use wat_parser::parser::{self, Cursor, Parse, ParseBuffer, Parser, Peek, Result};
use wat_parser::token::{F32, F64, Id, Index, ItemRef, LParen, NameAnnotation, RParen, Span};
use wat_parser::{annotation, custom_keyword, custom_reserved, gensym};

fn buffer_of(text: &str) -> ParseBuffer<'_> {
    ParseBuffer::new(text).unwrap()
}

/// Formats a value, or an error's message and offset.
fn told<T: Debug>(read: Result<T>) -> String {
    match read {
        Ok(value) => format!("{value:?}"),
        Err(error) => format!("{} at {}", error.message(), error.span().offset()),
    }
}

/// Parses a text as a type and formats the result.
fn read<'a, T: Parse<'a> + Debug>(buffer: &'a ParseBuffer<'a>) -> String {
    told(parser::parse::<T>(buffer))
}

/// Formats the value of an expression on a parser of a buffer.
macro_rules! run {
    ($buffer:expr, |$parser:ident| $body:expr) => {{
        struct Value(String);
        impl<'a> Parse<'a> for Value {
            fn parse($parser: Parser<'a>) -> Result<Self> {
                let value = $body;
                Ok(Value(format!("{value:?}")))
            }
        }
        match parser::parse::<Value>(&$buffer) {
            Ok(value) => value.0,
            Err(error) => told::<()>(Err(error)),
        }
    }};
}

/// Consumes any token.
fn take_any(parser: Parser<'_>) -> Result<()> {
    parser.step(|cursor| {
        let rest = match (cursor.lparen()?, cursor.rparen()?) {
            (Some(rest), _) | (_, Some(rest)) => rest,
            _ => match (cursor.integer()?, cursor.annotation()?) {
                (Some((_, rest)), _) | (_, Some((_, rest))) => rest,
                _ => return Err(cursor.error("expected a token")),
            },
        };
        Ok(((), rest))
    })
}

#[test]
fn integers_at_their_bounds() {
    // A signed type also accepts the values of the unsigned type of its size, as two's complement.
    macro_rules! check {
        ($($integer:ident $least:expr, $most:ident;)*) => {$(
            let (least, most) = (i128::from($least), i128::from($most::MAX));
            let wrapped = |number| if number > i128::from($integer::MAX) { number - most - 1 } else { number };
            for (number, fits) in [(least - 1, false), (least, true), (most, true), (most + 1, false)] {
                let wanted = if fits {
                    wrapped(number).to_string()
                } else {
                    concat!("invalid ", stringify!($integer), " number: constant out of range at 0").to_owned()
                };
                assert_eq!(read::<$integer>(&buffer_of(&number.to_string())), wanted, "{number}");
            }
        )*};
    }
    check! {
        u8 0, u8; u16 0, u16; u32 0, u32; u64 0, u64;
        i8 i8::MIN, u8; i16 i16::MIN, u16; i32 i32::MIN, u32; i64 i64::MIN, u64;
    }
}

#[test]
fn errors_have_the_offset_of_their_token() {
    for (text, at) in [("16)", 2), ("16 (", 3), ("16 16", 3), ("(;;)16 )", 7)] {
        let wanted = format!("extra tokens remaining after parse at {at}");
        assert_eq!(read::<u32>(&buffer_of(text)), wanted, "{text}");
    }
    let range = "invalid float value: constant out of range";
    assert_eq!(read::<F32>(&buffer_of("1e99 2")), format!("{range} at 0"));
    assert_eq!(read::<F64>(&buffer_of(" 1e999 2")), format!("{range} at 1"));
    for blanks in [0, 38, 39, 40, 41, 70_000] {
        let text = " ".repeat(blanks) + "1 2 ;; a\n (; b";
        let buffer = buffer_of(&text);
        let errors = run!(buffer, |parser| parser.step(|first| {
            let second = first.integer()?.unwrap().1;
            let third = second.integer()?.unwrap().1;
            let (comment, last) = third.comment()?.unwrap();
            let errors = (
                told::<()>(Err(second.error("wrong"))),
                told(last.comment()),
                told(last.peek_integer()),
            );
            Err::<((), Cursor<'_>), _>(first.error(format!("{comment} {errors:?}")))
        })?);
        let open = format!("unterminated block comment at {}", blanks + 10);
        let second = format!("wrong at {}", blanks + 2);
        let wanted = format!(";; a {:?} at {blanks}", (second, &open, &open));
        assert_eq!(errors, wanted);
    }
}

#[test]
fn a_lexical_error_has_its_line() {
    let error = parser::parse::<u32>(&buffer_of("\n  \"")).unwrap_err();
    let wanted = "unexpected end-of-file\n     --> <anon>:2:4\n      |\n    2 |   \"\n      |    ^";
    assert_eq!(error.to_string(), wanted);
}

custom_keyword!(inf);
custom_keyword!(trunc = "i32.trunc_f32_s");
custom_reserved!(spaceship = "<=>");
custom_reserved!(comma = ",");
annotation!(a);

#[test]
fn a_similar_token_is_another() {
    macro_rules! check {
        ($($name:ident $error:literal: $($text:literal)*;)*) => {$($(
            let buffer = buffer_of($text);
            assert_eq!(read::<$name>(&buffer), concat!("expected ", $error, " at 0"), $text);
            // A peek that fails leaves the token.
            assert_eq!(read::<Option<$name>>(&buffer), "extra tokens remaining after parse at 0", $text);
        )*)*};
    }
    check! {
        trunc "keyword `i32.trunc_f32_s`": "i32.trunc_f64_s" "i32.trunc_f32_u" "i32.trunc_f32" "$i32.trunc_f32_s";
        inf "keyword `inf`": "inf" "nan";
        spaceship "reserved symbol `<=>`": "=>=" "<==" "<=";
        comma "reserved symbol `,`": ";" "[";
        a "annotation `@a`": "@aa" "@\"aa\"" "@b";
    }
    // Nothing is seen at the end of a text.
    assert_eq!(read::<Option<a>>(&buffer_of("")).as_str(), "None");
    assert_eq!(read::<Option<trunc>>(&buffer_of("")).as_str(), "None");
    assert_eq!(
        read::<Option<ItemRef<'_, trunc>>>(&buffer_of("")).as_str(),
        "None"
    );
    // An optional name annotation begins with a parenthesis.
    let name = buffer_of("@name \"x\"");
    let wanted = "extra tokens remaining after parse at 0";
    assert_eq!(read::<Option<NameAnnotation>>(&name), wanted);
}

#[test]
fn types_have_names_in_errors() {
    let integers = [
        u8::display,
        u16::display,
        u32::display,
        u64::display,
        i8::display,
        i16::display,
        i32::display,
        i64::display,
    ];
    assert_eq!(
        integers.map(|name| name()),
        ["u8", "u16", "u32", "u64", "i8", "i16", "i32", "i64"]
    );
    let others = [
        LParen::display(),
        RParen::display(),
        Id::display(),
        Index::display(),
        <&str>::display(),
        <&[u8]>::display(),
        ItemRef::<trunc>::display(),
    ];
    let wanted = [
        "left paren",
        "right paren",
        "an identifier",
        "an index",
        "string",
        "string",
        "an item reference",
    ];
    assert_eq!(others, wanted);
}

/// Returns the results of all peeks of a cursor, and of an index.
fn peeks(parser: Parser<'_>) -> Result<[bool; 9]> {
    parser.step(|cursor| {
        let seen = [
            cursor.peek_lparen()?,
            cursor.peek_rparen()?,
            cursor.peek_id()?,
            cursor.peek_reserved()?,
            cursor.peek_keyword()?,
            cursor.peek_integer()?,
            cursor.peek_float()?,
            cursor.peek_string()?,
            Index::peek(cursor)?,
        ];
        Ok((seen, cursor))
    })
}

#[test]
fn a_cursor_sees_one_kind_of_token() {
    let texts = ["(", ")", "$a", "=>", "a", "1", "1.5", "\"s\"", "@a", ""];
    for (number, text) in texts.into_iter().enumerate() {
        let mut wanted = [0, 1, 2, 3, 4, 5, 6, 7].map(|kind| kind == number).to_vec();
        wanted.push(text == "$a" || text == "1");
        let seen = run!(buffer_of(text), |parser| Err::<(), _>(
            parser.error(format!("{:?}", peeks(parser)?))
        )?);
        assert_eq!(seen, format!("{wanted:?} at 0"), "{text}");
    }
    let string = "\"a\"";
    assert_eq!(read::<Option<&[u8]>>(&buffer_of(string)), "Some([97])");
    assert_eq!(read::<Option<&str>>(&buffer_of(string)), "Some(\"a\")");
    assert_eq!(
        read::<Option<spaceship>>(&buffer_of(" <=>")),
        "Some(spaceship(Span { offset: 1 }))"
    );
    let malformed = "malformed UTF-8 encoding of string-based id at 0";
    assert_eq!(read::<Option<a>>(&buffer_of("@\"\\ff\"")), malformed);
    let cursor = run!(buffer_of("a"), |parser| parser.step(|cursor| {
        let rest = cursor.keyword()?.unwrap().1;
        Ok((format!("{rest:?}"), rest))
    })?);
    assert_eq!(cursor, format!("{:?}", "Cursor { offset: 1, .. }"));
    assert_eq!(format!("{:?}", buffer_of("a")), "ParseBuffer { .. }");
}

/// Peeks at 12 types.
fn look_at_all(parser: Parser<'_>) -> Result<()> {
    macro_rules! peek {
        ($look:ident $($name:ident)*) => {$(
            custom_keyword!($name);
            $look.peek::<$name>()?;
        )*};
    }
    let mut look = parser.lookahead1();
    peek!(look k0 k1 k2 k3 k4 k5 k6 k7 k8 k9 k10 k11);
    Err(look.error())
}

#[test]
fn a_lookahead_names_each_type_that_it_did_not_see() {
    for (text, seen) in [
        ("x", None),
        ("k0", Some(0)),
        ("k7", Some(7)),
        ("k8", Some(8)),
        ("k11", Some(11)),
    ] {
        let others = (0..12).filter(|number| Some(*number) != seen);
        let names: Vec<String> = others.map(|number| format!("`k{number}`")).collect();
        let wanted = format!(
            "unexpected token, expected one of: {} at 0",
            names.join(", ")
        );
        assert_eq!(
            run!(buffer_of(text), |parser| look_at_all(parser)?),
            wanted,
            "{text}"
        );
    }
}

#[test]
fn a_group_that_fails_inside_another_restores_the_position() {
    let buffer = buffer_of("(1 (2 $x) 3)");
    let offsets = run!(buffer, |parser| parser.parens(|group| {
        group.parse::<u32>()?;
        let before = group.cur_span().offset();
        let failed = group.parens(Parser::parse::<(u32, Span)>);
        let after = group.cur_span().offset();
        group.parens(|inner| Ok((inner.parse::<u32>()?, inner.parse::<Id>()?)))?;
        Ok((before, told(failed), after, group.parse::<u32>()?))
    })?);
    assert_eq!(offsets, r#"(3, "expected `)` at 6", 3, 3)"#);
}

#[test]
fn standard_annotations_are_registered_for_a_while() {
    for name in [
        "custom",
        "name",
        "producers",
        "dylink.0",
        "metadata.code.branch_hint",
    ] {
        let text = format!("(@{name}) 1");
        let offsets = run!(buffer_of(&text), |parser| {
            let offset = |parser: Parser<'_>| Ok(parser.cur_span().offset());
            let before = offset(parser)?;
            let inside = parser.with_standard_annotations_registered(offset)?;
            (before, inside, offset(parser)?, parser.parse::<u32>()?)
        });
        let number = text.len() - 1;
        assert_eq!(offsets, format!("({number}, 0, {number}, 1)"), "{name}");
    }
}

#[test]
fn each_kept_token_stays_visible() {
    for blanks in 0..6 {
        let text = " ".repeat(blanks) + "0 (@note 1) 2 (@note (3)) 4";
        let mut buffer = buffer_of(&text);
        buffer.keep_shown(true);
        let offsets = run!(buffer, |parser| {
            let mut offsets = Vec::new();
            while !parser.is_empty() || parser.peek::<RParen>()? {
                let registered = parser.register_annotation("note");
                take_any(parser)?;
                drop(registered);
                offsets.push(parser.cur_span().offset());
            }
            offsets
        });
        let wanted = [2, 3, 9, 10, 12, 14, 15, 21, 22, 23, 24, 26, 27];
        assert_eq!(
            offsets,
            format!("{:?}", wanted.map(|offset| offset + blanks))
        );
    }
}

#[test]
fn settings_are_reset() {
    let mut buffer = buffer_of("");
    buffer.track_instr_spans(true);
    assert_eq!(run!(buffer, |parser| parser.track_instr_spans()), "true");
    buffer.track_instr_spans(false);
    assert_eq!(run!(buffer, |parser| parser.track_instr_spans()), "false");
}

#[test]
fn tokens_far_apart_are_told_apart() {
    // 64 tokens that have 65,536 bytes in all, and others after them; a long text before 100 tokens.
    let comment = format!("(;{};)", " ".repeat(65_536 - 64 * 2 - 4 + 1));
    let near = comment + &"1 ".repeat(63) + "1" + &"(".repeat(70);
    assert_eq!(near.find("1("), Some(65_535));
    let counts = run!(buffer_of(&near), |parser| {
        let mut counts = (0, 0);
        while parser.peek::<u32>()? {
            parser.parse::<u32>()?;
            counts.0 += 1;
        }
        while let Some(rest) = parser.step(|cursor| Ok((cursor.lparen()?, cursor)))? {
            parser.step(|_| Ok(((), rest)))?;
            counts.1 += 1;
        }
        counts
    });
    assert_eq!(counts, "(64, 70)");
    let far = " ".repeat(1 << 24) + &"1 ".repeat(100);
    let offsets = run!(buffer_of(&far), |parser| {
        let mut offsets = Vec::new();
        while !parser.is_empty() {
            offsets.push(parser.parse::<(u32, Span)>()?.1.offset() - (1 << 24));
        }
        offsets
    });
    let wanted: Vec<usize> = (0..100).map(|number| 2 * number).collect();
    assert_eq!(offsets, format!("{wanted:?}"));
}

/// All strings of a text.
struct Strings<'a>(Vec<&'a [u8]>);

impl<'a> Parse<'a> for Strings<'a> {
    fn parse(parser: Parser<'a>) -> Result<Self> {
        let mut strings = Vec::new();
        while !parser.is_empty() {
            strings.push(parser.parse()?);
        }
        Ok(Strings(strings))
    }
}

#[test]
fn strings_with_escapes_stay() {
    let single = (0..=255).map(|byte| vec![byte]);
    let magic = [&b"\0asm"[..], b"\x01\0\0\0", b"\0asn", b"\x01\0\0\x01"].map(Vec::from);
    let others = (0..20_000_usize).map(|i| {
        (0..i % 80)
            .map(|k| (i * 7 + k * 13).to_le_bytes()[0])
            .collect()
    });
    let all: Vec<Vec<u8>> = single.chain(magic).chain(others).collect();
    let mut text = String::new();
    for bytes in &all {
        text += " \"";
        text.extend(bytes.iter().map(|byte| format!("\\{byte:02x}")));
        text += "\"";
    }
    let buffer = buffer_of(&text);
    assert_eq!(parser::parse::<Strings>(&buffer).unwrap().0, all);
    let name = buffer_of("$\"na\\c3\\afve\"");
    assert_eq!(parser::parse::<Id>(&name).unwrap().name(), "naïve");
}

#[test]
fn generated_identifiers_differ() {
    let at = Span::from_offset(0);
    let first = || {
        assert_eq!(
            format!("{:?}", gensym::generate(at)),
            "Id { generation: 1 }"
        );
    };
    thread::scope(|scope| scope.spawn(first).join().unwrap());
    for _ in 0..2 {
        gensym::reset();
        first();
    }
    gensym::reset();
    let all: HashSet<Id> = (0..70_000).map(|_| gensym::generate(at)).collect();
    assert_eq!(all.len(), 70_000);
    assert!(all.iter().all(Id::is_gensym));
    let (first, second) = (
        Index::from(gensym::generate(at)),
        Index::from(gensym::generate(at)),
    );
    assert!(first == first && first != second && first != Index::Num(0, at));
    assert!(!first.is_resolved() && !Index::from(Id::new("a", at)).is_resolved());
}

#[test]
fn lists_begin_with_their_length() {
    for (count, wanted) in [
        (0, &[0][..]),
        (1, &[1]),
        (127, &[127]),
        (128, &[128, 1]),
        (300, &[172, 2]),
    ] {
        let mut bytes = Vec::new();
        vec![7u8; count].encode(&mut bytes);
        assert_eq!(bytes, [wanted, &vec![7; count]].concat(), "{count}");
    }
}
