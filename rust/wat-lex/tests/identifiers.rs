//! Spans, identifiers, indices, and generated identifiers.

// Offsets in one text have similar names.
#![allow(clippy::similar_names)]

mod refusing;

use refusing::refusing_in_turn;
use std::fmt::Debug;
use std::hash::{DefaultHasher, Hash, Hasher};
use wat_lex::proved::gensym::{FillError, Gensym, GensymFull};
use wat_lex::proved::token::{Id, Index, LineIndex, Span, fill_line_feeds};
use wat_lex::shim::alloc::Global;
use wat_lex::shim::borrow::CowStr;

fn at(offset: usize) -> Span {
    Span::from_offset(offset)
}

fn owned<'a>(name: &str, span: Span) -> Id<'a> {
    Id::from_cow(CowStr::Owned(name.to_string().into()), span)
}

/// Returns the first identifier that a new generator creates.
fn made<'a>(span: Span) -> Id<'a> {
    Gensym::new().generate(span).unwrap()
}

fn hash_of(value: &impl Hash) -> u64 {
    let mut hasher = DefaultHasher::new();
    value.hash(&mut hasher);
    hasher.finish()
}

/// Checks that two values and their hashes are equal if `equal`, and that both differ otherwise.
fn are_equal_if<T: Hash + PartialEq + Debug>(equal: bool, a: &T, b: &T) {
    assert_eq!(a == b, equal, "{a:?} {b:?}");
    assert_eq!(hash_of(a) == hash_of(b), equal, "{a:?} {b:?}");
}

#[test]
fn places_are_ordered_by_their_offsets() {
    for (a, b) in [(0, 0), (0, 1), (1, 0), (7, usize::MAX)] {
        let (first, second) = (at(a), at(b));
        assert_eq!(first.offset(), a);
        assert_eq!(first < second, a < b, "{a} {b}");
        assert_eq!(first.cmp(&second), a.cmp(&b), "{a} {b}");
        are_equal_if(a == b, &first, &second);
    }
}

/// Returns the line and the column of an offset, after comparing `linecol_in` with a `LineIndex`.
fn place(text: &str, offset: usize) -> (usize, usize) {
    let place = at(offset).linecol_in(text);
    let lines = LineIndex::new(Global, text).unwrap();
    assert_eq!(lines.linecol(at(offset)), place, "{offset}");
    place
}

#[test]
fn places_are_lines_and_columns() {
    let shown = |offset| {
        let (line, column) = place("(a\n\r\n  b", offset);
        format!("{line}:{column} ")
    };
    let places: String = (0..10).map(shown).collect();
    assert_eq!(places, "0:0 0:1 0:2 1:0 1:1 2:0 2:1 2:2 2:3 3:0 ");
    assert_eq!([0, usize::MAX].map(|offset| place("", offset)), [(0, 0); 2]);
}

/// Computes the line and the column of an offset in UTF-16 code units with Rust's `len_utf16`.
fn utf16_place(text: &str, offset: usize) -> (usize, usize) {
    let (line, column) = place(text, offset);
    let start = offset - column;
    let before = text[start..]
        .char_indices()
        .take_while(|(at, _)| *at < column);
    (line, before.map(|(_, c)| c.len_utf16()).sum())
}

#[test]
fn columns_are_in_utf16() {
    let parts = ["a", "é", "漢", "\u{1f600}", "\n", "0123456789abcdef"];
    for number in 0..parts.len().pow(5) {
        let part = |digit| parts[number / parts.len().pow(digit) % parts.len()];
        let text: String = (0..5).map(part).collect();
        let proved = LineIndex::new(Global, &text).unwrap();
        let lines = wat_lex::LineIndex::new(&text);
        for offset in 0..=text.len() {
            let wanted = utf16_place(&text, offset);
            assert_eq!(
                proved.utf16_linecol(at(offset)),
                wanted,
                "{text:?} {offset}"
            );
            assert_eq!(lines.utf16_linecol(at(offset)), wanted, "{text:?} {offset}");
            assert_eq!(
                lines.linecol(at(offset)),
                place(&text, offset),
                "{text:?} {offset}"
            );
        }
        let past = at(text.len() + 1);
        assert_eq!(lines.utf16_linecol(past), lines.linecol(past), "{text:?}");
    }
}

#[test]
fn columns_of_a_long_line_are_in_utf16() {
    let text = "\n".to_owned() + &"a\u{1f600}é漢".repeat(30_000);
    let lines = wat_lex::LineIndex::new(&text);
    let near = |place: usize| place - 40..place + 40;
    let far = (0..=text.len()).step_by(9_973);
    for offset in far.chain(near(0x1_0000)).chain(near(0x2_0000)) {
        let wanted = utf16_place(&text, offset);
        assert_eq!(lines.utf16_linecol(at(offset)), wanted, "{offset}");
    }
}

#[test]
fn line_feeds_fill_a_buffer_that_has_room_for_them() {
    let text = b"\na\n\nb";
    for room in 0..5 {
        let mut feeds = [7; 5];
        assert_eq!(fill_line_feeds(text, &mut feeds[..room]), 3);
        let wanted = if room < 3 { [7; 5] } else { [0, 2, 3, 7, 7] };
        assert_eq!(feeds, wanted, "{room}");
    }
}

#[test]
fn places_are_those_of_a_long_text() {
    let count = 1_100_000;
    let text = "a".repeat(count) + "\nb";
    let places = [0, count, count + 1, count + 2].map(|offset| place(&text, offset));
    assert_eq!(places, [(0, 0), (0, count), (1, 0), (1, 1)]);
}

#[test]
fn identifiers_are_equal_at_any_place() {
    let ids = |span| {
        [
            Id::new("x", span),
            owned("x", span),
            made(span),
            Id::new("gensym", span),
            Id::new("y", span),
        ]
    };
    // Only the first two are equal.
    for (number, near) in ids(at(0)).iter().enumerate() {
        for (other, far) in ids(at(9)).iter().enumerate() {
            are_equal_if(number.max(1) == other.max(1), near, far);
        }
    }
}

#[test]
fn indices_are_equal_at_any_place() {
    let indices = |span| {
        [
            Index::Num(0, span),
            Index::Num(12, span),
            Index::Num(13, span),
            Index::Id(Id::new("x", span)),
            Id::new("y", span).into(),
        ]
    };
    for (number, near) in indices(at(0)).iter().enumerate() {
        for (other, far) in indices(at(9)).iter().enumerate() {
            are_equal_if(number == other, near, far);
        }
    }
}

#[test]
fn copies_keep_name_and_place() {
    let long = "n".repeat(1_100_000);
    for name in ["a", "", "\u{6f22}", &long] {
        for id in [Id::new(name, at(9)), owned(name, at(9))] {
            let copy = id.clone(Global).unwrap();
            assert!(copy.name() == name && copy == id);
            assert_eq!(copy.span(), at(9));
        }
    }
    for index in [
        Index::Id(Id::new("a", at(9))),
        Index::Id(owned("a", at(9))),
        Index::Num(12, at(9)),
    ] {
        let copy = index.clone(Global).unwrap();
        assert_eq!((&copy, copy.span()), (&index, at(9)));
    }
}

#[test]
fn an_identifier_shows_its_name_or_its_generation() {
    let rows = [
        (Id::new("x", at(9)), "\"x\""),
        (owned("a\"b", at(9)), "\"a\\\"b\""),
        (made(at(9)), "Id { generation: 1 }"),
    ];
    for (id, shown) in rows {
        assert_eq!(format!("{id:?}"), shown);
    }
}

#[test]
fn made_identifiers_differ_until_the_counter_is_reset() {
    let mut gensym = Gensym::new();
    let [first, second] = [at(9), at(9)].map(|span| gensym.generate(span).unwrap());
    assert_ne!(first, second);
    assert_ne!(second, Id::new("gensym", at(9)));
    assert_eq!((first.name(), first.span()), ("gensym", at(9)));
    gensym.reset();
    let again = gensym.generate(at(0)).unwrap();
    assert_eq!((&again, again.span()), (&first, at(0)));
}

#[test]
fn the_last_generation_is_followed_by_none() {
    let mut gensym = Gensym::with_generation(u32::MAX - 1);
    let mut slot = Some(gensym.generate(at(0)).unwrap());
    assert_eq!(gensym.generate(at(0)), Err(GensymFull));
    let copy = gensym.fill(Global, at(0), &mut slot).unwrap();
    assert_eq!(format!("{copy:?}"), "Id { generation: 4294967295 }");
    let mut slot = None;
    assert_eq!(gensym.fill(Global, at(0), &mut slot), Err(FillError::Full));
    assert_eq!(slot, None);
    assert_eq!(gensym.generate(at(0)), Err(GensymFull));
}

#[test]
fn an_empty_slot_is_filled_once() {
    let (mut gensym, mut slot) = (Gensym::new(), None);
    let first = gensym.fill(Global, at(9), &mut slot).unwrap();
    assert_eq!((&first, first.span()), (&made(at(0)), at(9)));
    let again = gensym.fill(Global, at(0), &mut slot).unwrap();
    assert_eq!((&again, again.span()), (&first, at(9)));
    assert_ne!(gensym.generate(at(9)).unwrap(), first);
}

#[test]
fn a_full_slot_is_copied() {
    let (mut gensym, mut slot) = (Gensym::new(), Some(Id::new("x", at(0))));
    let copy = gensym.fill(Global, at(9), &mut slot).unwrap();
    assert_eq!((copy.name(), copy.span()), ("x", at(0)));
    assert_eq!(slot, Some(copy));
    assert_eq!(gensym.generate(at(0)).unwrap(), made(at(0)));
}

#[test]
fn a_refused_copy_leaves_slot_and_counter() {
    let given = || (Gensym::with_generation(7), Some(owned("x", at(0))));
    let call =
        |(gensym, slot): &mut (Gensym, Option<Id<'static>>)| gensym.fill(Global, at(9), slot);
    let (refused, (answer, _)) = refusing_in_turn(given, call);
    assert_eq!(answer, Ok(Id::new("x", at(0))));
    for (answer, (mut gensym, slot)) in refused {
        assert_eq!(answer, Err(FillError::Memory));
        assert_eq!(slot, Some(Id::new("x", at(0))));
        let next = Gensym::with_generation(7).generate(at(0));
        assert_eq!(gensym.generate(at(0)), next);
    }
}
