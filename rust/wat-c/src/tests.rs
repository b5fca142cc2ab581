//! Tests of the rows of a text, their links, and peeks at them.

use crate::rows::counting::{Row, fill_counting};
use crate::rows::links::link;
use crate::rows::looks::look_as_integers;
use crate::rows::rows::plain;
use wat_lex::proved::lexer::Settings;
use wat_lex::shim::alloc::Global;

const SETTINGS: Settings = Settings {
    allow: false,
    strict: false,
};

/// Returns the rows of a text with their links, and the code of the reason why there are no more.
fn rows_of(text: &str) -> (Vec<Row>, u32) {
    let none = Row {
        offset: 0,
        len: 0,
        kind: plain(0),
        link: 0,
    };
    let mut rows = vec![none; text.len() + 1];
    let filled = fill_counting(text, 0, SETTINGS, &mut rows);
    rows.truncate(filled.count);
    link(&mut rows);
    (rows, filled.why)
}

/// Peeks from the row `place` on, under registered names. Returns the index of the row that is found, and the status.
fn look(text: &str, names: &[&str], place: usize) -> (u32, u32) {
    let (rows, why) = rows_of(text);
    let end = |number| names[..=number].concat().len();
    let ends: Vec<usize> = (0..names.len()).map(end).collect();
    let bytes = names.concat();
    let found = look_as_integers(Global, text, &rows, why, place, bytes.as_bytes(), &ends);
    (found.row(), found.status())
}

/// A text, the registered names, the index of the row to peek from, and the index of the row that is found with the status.
type Look = (&'static str, &'static [&'static str], usize, (u32, u32));

#[test]
fn looks_find_a_row_under_names_or_say_why_not() {
    let rows: [Look; 16] = [
        ("(@a x) b", &[], 0, (4, 0)),
        ("(@a x) b", &["b", "a"], 0, (0, 0)),
        ("(@a x) b", &["a"], 1, (1, 0)),
        ("(@a (b)) ;; c\n (@b) d", &[], 0, (9, 0)),
        ("(@a (b)) ;; c\n (@b) d", &["x", "b"], 0, (6, 0)),
        ("(@\"\\61\") b", &["a"], 0, (0, 0)),
        ("(@\"\\61\") b", &["b"], 0, (3, 0)),
        ("(@\"a\") b", &["a"], 0, (0, 0)),
        // The end of the text or of its rows, a lexical error, a group that is not closed, and an annotation without a valid name.
        ("", &[], 0, (0, 1)),
        ("a", &[], 1, (1, 1)),
        ("a", &[], 2, (1, 1)),
        ("(@a (;", &[], 0, (2, 3)),
        ("(@a b \"", &["a"], 3, (3, 3)),
        ("a (@a (b)", &[], 1, (1, 4)),
        ("a (@) b", &[], 1, (2, 5)),
        ("(@\"\\ff\") b", &[], 0, (1, 5)),
    ];
    for (text, names, place, wanted) in rows {
        assert_eq!(look(text, names, place), wanted, "{text} {names:?} {place}");
    }
}

#[test]
fn looks_compare_the_whole_of_a_long_name() {
    let name = "n".repeat(40_001);
    let text = format!("(@\"{}\\6e\" x) b", &name[1..]);
    assert_eq!(look(&text, &[&name], 0), (0, 0));
    assert_eq!(look(&text, &["n"], 0), (4, 0));
    assert_eq!(look(&text, &[&name[1..]], 0), (4, 0));
}

#[test]
fn links_say_where_groups_are_closed() {
    let (rows, _) = rows_of("(a (b) c) (");
    let links: Vec<u32> = rows.iter().map(|row| row.link).collect();
    assert_eq!(links, [7, 7, 5, 5, 7, 7, 0, 0]);
}

#[test]
fn rows_say_kind_and_place() {
    let text = " (@a b) (; c ;) (d) -1 ;; e\n (@f \"g\" $h 1.5 [";
    let (rows, why) = rows_of(text);
    let words = |row: &Row| {
        (
            row.kind.code,
            &text[row.offset as usize..][..row.len as usize],
        )
    };
    let shown: Vec<_> = rows.iter().map(words).collect();
    let wanted = [
        (16, "("),
        (9, "@a"),
        (8, "b"),
        (5, ")"),
        (4, "("),
        (8, "d"),
        (5, ")"),
        (11, "-1"),
        (16, "("),
        (9, "@f"),
        (6, "\"g\""),
        (7, "$h"),
        (15, "1.5"),
        (10, "["),
    ];
    assert_eq!((shown.as_slice(), why), (wanted.as_slice(), 0));
}

#[test]
fn rows_in_pieces_are_the_rows() {
    let text = " (@a b) (; c ;) (d) -1 ;; e\n (@f";
    let (whole, _) = rows_of(text);
    let (mut pieces, mut at) = (Vec::new(), 0);
    for _ in &whole {
        let mut one = [whole[0]];
        let filled = fill_counting(text, at, SETTINGS, &mut one);
        assert_eq!((filled.count, filled.why), (1, 1), "{at}");
        pieces.extend(one);
        at = filled.at;
    }
    assert_eq!(fill_counting(text, at, SETTINGS, &mut [whole[0]]).count, 0);
    link(&mut pieces);
    assert_eq!((pieces.len(), pieces), (10, whole));
}
