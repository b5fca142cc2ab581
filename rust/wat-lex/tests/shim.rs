//! Results of the shim, and the state of its values after an allocation failure. Each allocation fails in turn.

// A test whose allocations fail forever is stopped.
#![allow(clippy::maybe_infinite_iter)]

mod refusing;

use refusing::{granting, refusing, without_memory};
use std::cell::Cell;
use std::collections::BTreeMap as StdMap;
use wat_lex::proved::lexer::{Lexer, TokenKind};
use wat_lex::shim::alloc::{AllocError, AllocFailed, Global};
use wat_lex::shim::borrow::{CowSlice, CowStr};
use wat_lex::shim::boxed::Box;
use wat_lex::shim::collections::{BTreeMap, Key};
use wat_lex::shim::fast_float::Numeral;
use wat_lex::shim::smallvec::SmallVec;
use wat_lex::shim::string::{JoinIn, String, ToStringIn};
use wat_lex::shim::unicode_width::{UnicodeWidthStr, char_iter_width};
use wat_lex::shim::vec::Vec;

fn vec_of(items: &[u32]) -> Vec<u32> {
    let mut all = Vec::with_capacity(Global, items.len()).unwrap();
    without_memory(|| all.extend_from_slice(items)).unwrap();
    all
}

#[test]
fn a_vector_is_as_it_was_where_a_push_is_refused() {
    let mut items = without_memory(|| Vec::new(Global));
    assert_eq!(refusing(|| items.push(7)), Err(AllocFailed { value: 7 }));
    assert_eq!(items.as_slice(), []);
    items.push(7).unwrap();
    let mut items = vec_of(&[1, 2, 3]);
    assert_eq!(refusing(|| items.push(4)), Err(AllocFailed { value: 4 }));
    assert_eq!(items.as_slice(), [1, 2, 3]);
    items.push(4).unwrap();
    assert_eq!(items.as_slice(), [1, 2, 3, 4]);
    assert_eq!(AllocError::from(AllocFailed { value: 4 }), AllocError);
}

#[test]
fn a_vector_takes_its_room_at_once() {
    assert_eq!(
        refusing(|| Vec::<u32>::with_capacity(Global, 3)),
        Err(AllocError)
    );
    assert_eq!(
        without_memory(|| Vec::<u32>::with_capacity(Global, 0)),
        Ok(Vec::new(Global))
    );
    assert_eq!(
        Vec::<u32>::with_capacity(Global, usize::MAX),
        Err(AllocError)
    );
    let mut items = vec_of(&[1]);
    assert_eq!(refusing(|| items.reserve(5)), Err(AllocError));
    assert_eq!(items.as_slice(), [1]);
    assert_eq!(items.reserve(usize::MAX), Err(AllocError));
    items.reserve(5).unwrap();
    without_memory(|| items.extend_from_slice(&[2, 3, 4, 5, 6])).unwrap();
    assert_eq!(items.as_slice(), [1, 2, 3, 4, 5, 6]);
}

#[test]
fn a_vector_is_as_it_was_where_items_are_refused() {
    let mut items = vec_of(&[1, 2]);
    assert_eq!(
        refusing(|| items.extend_from_slice(&[3, 4])),
        Err(AllocError)
    );
    assert_eq!(items.as_slice(), [1, 2]);
    assert_eq!(refusing(|| Vec::from_elem(Global, 9, 3)), Err(AllocError));
    assert_eq!(Vec::from_elem(Global, 9, 3).unwrap().as_slice(), [9, 9, 9]);
    without_memory(|| items.extend_from_slice(&[])).unwrap();
    assert_eq!(without_memory(|| items.pop()), Some(2));
    without_memory(|| items.truncate(5));
    assert_eq!(items.as_slice(), [1]);
    without_memory(|| items.clear());
    assert_eq!(without_memory(|| items.pop()), None);
}

#[test]
fn a_text_is_as_it_was_where_more_is_refused() {
    let mut text = without_memory(|| String::new(Global));
    assert_eq!(refusing(|| text.push('é')), Err(AllocError));
    assert_eq!(text.as_str(), "");
    let mut text = String::from_str(Global, "ab").unwrap();
    assert_eq!(
        refusing(|| text.push_str("cdefghijklmnopqrstuvwxyz")),
        Err(AllocError)
    );
    assert_eq!(text.as_str(), "ab");
    text.push_str("cd").unwrap();
    text.push('é').unwrap();
    assert_eq!(text.as_str(), "abcdé");
    assert_eq!(refusing(|| text.clone()), Err(AllocError));
    assert_eq!(text.clone().unwrap(), text);
    assert_eq!(refusing(|| String::from_str(Global, "a")), Err(AllocError));
    assert_eq!(
        refusing(|| String::with_capacity(Global, 8)),
        Err(AllocError)
    );
    let mut text = String::with_capacity(Global, 8).unwrap();
    without_memory(|| text.push_str("12345678")).unwrap();
    assert_eq!(format!("{text} {text:?}"), "12345678 \"12345678\"");
}

#[test]
fn what_is_printed_into_a_text_stays_up_to_the_refusal() {
    let mut text = String::from_str(Global, "a").unwrap();
    let long = "b".repeat(100);
    let (answer, _) = granting(1, || write!(text, "{}{long}", 1));
    assert!(answer.is_err());
    assert_eq!(text.as_str(), "a1");
    write!(text, "{long}").unwrap();
    assert_eq!(text.len(), 102);
    let number = 123_u32.to_string_in(Global).unwrap();
    assert_eq!(number.as_str(), "123");
    assert!(refusing(|| 123_u32.to_string_in(Global)).is_err());
}

#[test]
fn bytes_become_a_text_without_memory() {
    let mut bytes = Vec::new(Global);
    bytes.extend_from_slice("é".as_bytes()).unwrap();
    assert_eq!(
        without_memory(|| String::from_utf8(bytes))
            .unwrap()
            .as_str(),
        "é"
    );
    let mut bytes = Vec::new(Global);
    bytes.extend_from_slice(&[b'a', 0xff]).unwrap();
    let error = without_memory(|| String::from_utf8(bytes)).unwrap_err();
    assert_eq!(error.bytes.as_slice(), [b'a', 0xff]);
}

#[test]
fn a_text_keeps_its_memory_where_it_is_cleared_or_becomes_bytes() {
    let mut text = String::from_str(Global, "abcd").unwrap();
    without_memory(|| text.clear());
    assert_eq!(text.as_str(), "");
    without_memory(|| text.push_str("efgh")).unwrap();
    assert_eq!(without_memory(|| text.into_bytes()).as_slice(), b"efgh");
}

#[test]
fn the_items_of_a_vector_come_in_order_without_memory() {
    let items = vec_of(&[1, 2, 3]);
    let mut found = items.into_iter();
    assert_eq!(
        without_memory(|| [found.next(), found.next(), found.next(), found.next()]),
        [Some(1), Some(2), Some(3), None]
    );
}

#[cfg(feature = "std")]
#[test]
fn a_refused_request_is_an_error_of_a_stream() {
    use std::io::{Error, ErrorKind};
    let of_request = without_memory(|| Error::from(AllocError));
    let of_value = without_memory(|| Error::from(AllocFailed { value: 1 }));
    assert_eq!(
        (of_request.kind(), of_value.kind()),
        (ErrorKind::OutOfMemory, ErrorKind::OutOfMemory)
    );
    assert_eq!(
        (of_request.raw_os_error(), of_value.raw_os_error()),
        (None, None)
    );
}

#[test]
fn texts_are_joined_or_refused() {
    let texts = ["one", "two", "three"];
    let (joined, asked) = granting(usize::MAX, || texts.join_in(Global, ", "));
    assert_eq!(joined.unwrap().as_str(), "one, two, three");
    for granted in 0..asked {
        assert_eq!(
            granting(granted, || texts.join_in(Global, ", ")).0,
            Err(AllocError)
        );
    }
    assert_eq!(
        without_memory(|| [""; 0].join_in(Global, ", "))
            .unwrap()
            .as_str(),
        ""
    );
}

/// A value that counts its drops.
#[derive(Debug)]
struct Counted<'a>(&'a Cell<usize>);

impl Drop for Counted<'_> {
    fn drop(&mut self) {
        self.0.set(self.0.get() + 1);
    }
}

#[test]
fn a_value_comes_back_where_its_box_is_refused() {
    let dropped = Cell::new(0);
    let failed = refusing(|| Box::new(Global, Counted(&dropped))).unwrap_err();
    assert_eq!(dropped.get(), 0);
    let (boxed, asked) = granting(usize::MAX, || Box::new(Global, failed.value));
    assert_eq!((dropped.get(), asked), (0, 1));
    drop(boxed.unwrap());
    assert_eq!(dropped.get(), 1);
    let mut number = Box::new(Global, 5).unwrap();
    *number += 1;
    assert_eq!((*number, format!("{number:?}")), (6, "6".to_owned()));
    without_memory(|| Box::new(Global, ())).unwrap();
}

#[test]
fn what_is_borrowed_takes_memory_to_be_owned() {
    assert_eq!(
        refusing(|| CowStr::Borrowed("a").into_owned(Global)),
        Err(AllocError)
    );
    let owned = CowStr::Owned(CowStr::Borrowed("a").into_owned(Global).unwrap());
    assert_eq!((owned.as_str(), &owned), ("a", &CowStr::Borrowed("a")));
    assert_eq!(
        without_memory(|| owned.into_owned(Global))
            .unwrap()
            .as_str(),
        "a"
    );
    let items = CowSlice::Owned(vec_of(&[1, 2]));
    assert_eq!(
        (items.as_slice(), &items),
        (&[1, 2][..], &CowSlice::Borrowed(&[1, 2]))
    );
    assert_ne!(items, CowSlice::Borrowed(&[1, 3]));
    assert_eq!(format!("{items:?}"), "[1, 2]");
    assert_eq!(std::vec::Vec::from(vec_of(&[1, 2])), [1, 2]);
}

#[test]
fn a_small_vector_takes_memory_past_its_own_room() {
    let mut items = without_memory(|| SmallVec::<u32, 4>::new(Global));
    for item in 0..4 {
        without_memory(|| items.push(item)).unwrap();
    }
    assert_eq!(refusing(|| items.push(4)), Err(AllocFailed { value: 4 }));
    assert_eq!(items.as_slice(), [0, 1, 2, 3]);
    items.push(4).unwrap();
    assert_eq!(items.as_slice(), [0, 1, 2, 3, 4]);
    assert_eq!(*items, [0, 1, 2, 3, 4]);
}

#[test]
fn a_map_is_as_it_was_where_a_pair_is_refused() {
    let mut map = without_memory(|| BTreeMap::new(Global));
    for (key, value) in [(2u64, "two"), (1, "one"), (3, "three"), (5, "five")] {
        assert_eq!(map.insert(key, value), Ok(None));
    }
    assert_eq!(without_memory(|| map.insert(2, "zwei")), Ok(Some("two")));
    assert_eq!(refusing(|| map.insert(4, "four")), Err(AllocError));
    assert_eq!(
        (map.len(), map.get(&4), map.get(&5)),
        (4, None, Some(&"five"))
    );
    assert_eq!(without_memory(|| map.remove(&1)), Some("one"));
    assert_eq!(
        (map.remove(&1), map.len(), map.is_empty()),
        (None, 3, false)
    );
}

#[test]
fn a_map_is_as_it_was_where_any_of_its_requests_is_refused() {
    // The number of keys, a key to insert, and the number of allocations of the insertion.
    for (count, key, requests) in [
        (0u64, 1, 1),
        // The first leads are recorded.
        (8, 1, 2),
        (9, 1, 1),
        (16, 1, 1),
        (18, 1, 1),
        (32, 1, 1),
        // A part is split: the first part, one for which the list of parts has capacity, and one for which it has not.
        (512, 1, 4),
        (512, 1023, 4),
        (896, 1791, 2),
        (2048, 4095, 4),
    ] {
        let is_refused = |granted| is_refused(count, key, granted);
        let refused = (0..).take_while(|granted| is_refused(*granted)).count();
        assert_eq!(refused, requests, "{count} {key}");
    }
}

/// Inserts an odd key into a map of `count` even keys, with `granted` successful allocations. Returns `true` if the insertion fails.
fn is_refused(count: u64, key: u64, granted: usize) -> bool {
    let mut map = BTreeMap::new(Global);
    for key in 0..count {
        map.insert(2 * key, key).unwrap();
    }
    let (answer, _) = granting(granted, || map.insert(key, 7));
    assert_eq!(map.get(&key), answer.map_or(None, |_| Some(&7)));
    let len = usize::try_from(count).unwrap() + usize::from(answer.is_ok());
    assert_eq!((map.len(), map.keys().count()), (len, len));
    assert!(map.keys().is_sorted());
    assert!((0..count).all(|key| map.get(&(2 * key)) == Some(&key)));
    assert_eq!(map.insert(key + 2, 9), Ok(None));
    assert_eq!(map.get(&(key + 2)), Some(&9));
    answer.is_err()
}

#[test]
fn a_map_answers_where_its_parts_become_empty() {
    let key_of = |key: u64| text(&format!("{}{key:05}", &"a_prefix"[..below(9, key)]));
    for stride in [1, 2_999, 1_009] {
        let order = || (0..3_000).map(|step| step * stride % 3_000);
        let mut map = BTreeMap::new(Global);
        for _ in 0..2 {
            for key in order() {
                assert_eq!(map.insert(key_of(key), key), Ok(None));
            }
            for key in order() {
                assert_eq!(map.remove(&key_of(key)), Some(key));
                let next = (key + stride) % 3_000;
                assert_eq!(map.get(&key_of(key)), None);
                let found = map.get(key_of(next).as_str());
                assert_eq!(found, Some(&next).filter(|_| next > 0));
            }
            assert!(map.is_empty());
        }
    }
}

#[test]
fn a_map_answers_where_its_keys_come_to_begin_with_others() {
    let key_of = |begin, key: u64| text(&format!("{begin}{:04}", key * 617 % 2_000 * 5));
    for (old, new) in [("p", "q"), ("q", "p"), ("function_old_", "function_new_")] {
        let mut map = BTreeMap::new(Global);
        for key in 0..2_000 {
            assert_eq!(map.insert(key_of(old, key), key), Ok(None));
        }
        for key in 0..200 {
            assert_eq!(map.insert(key_of(new, key), key), Ok(None));
        }
        assert!((0..2_000).all(|key| map.remove(&key_of(old, key)) == Some(key)));
        for key in 200..2_000 {
            assert_eq!(map.insert(key_of(new, key), key), Ok(None));
        }
        assert!((0..2_000).all(|key| map.get(&key_of(new, key)) == Some(&key)));
        assert!((0..2_000).all(|key| map.get(&key_of(old, key)).is_none()));
    }
}

#[test]
fn a_map_answers_where_its_keys_end_in_zeros() {
    for prefix in ["", "abc", "a_prefix", "a_longer_prefix"] {
        let key_of = |zeros: usize| text(&format!("{prefix}{}", "\0".repeat(zeros)));
        let mut map = BTreeMap::new(Global);
        for zeros in 0..20 {
            assert_eq!(map.insert(key_of(zeros), zeros), Ok(None));
        }
        assert!((0..20).all(|zeros| map.get(&key_of(zeros)) == Some(&zeros)));
        assert!(map.keys().is_sorted(), "{prefix:?}");
    }
}

#[test]
fn a_map_answers_where_its_integers_have_other_first_bytes() {
    let key_of = |key: u64| key.wrapping_mul(0x9e37_79b9_7f4a_7c15);
    let mut map = BTreeMap::new(Global);
    for key in 0..2_000 {
        assert_eq!(map.insert(key_of(key), key), Ok(None));
    }
    assert!((0..2_000).all(|key| map.get(&key_of(key)) == Some(&key)));
    assert!(map.keys().is_sorted());
}

#[test]
fn a_map_answers_as_that_of_rust() {
    for keys in [3, 12, 200, 5_000] {
        compare_maps(keys, |key| key);
        compare_maps(keys, |key| text(&format!("{key}")));
        compare_maps(keys, |key| {
            text(&format!("function_{:08}", key / 3)[..below(18, key)])
        });
        compare_maps(keys, |key| text(&"\0".repeat(below(12, key))));
        compare_maps(keys, |key| {
            vec_of_bytes(&key.to_le_bytes()[..below(9, key)])
        });
        // The first keys of many parts have the same lead.
        compare_maps(keys, |key| text(&format!("{}_function_{key}", key % 3)));
        // All keys except a few begin with few bytes, with many, or with zeros.
        for prefix in ["f", "a_function_of_", "\0\0\0"] {
            compare_maps(keys, |key| match key {
                0..8 => text(&prefix[..below(8, key).min(prefix.len())]),
                8 => text("g"),
                _ => text(&format!("{prefix}{key}")),
            });
        }
    }
}

/// Returns an integer less than `most` that depends on the key.
fn below(most: u64, key: u64) -> usize {
    usize::try_from(key % most).unwrap()
}

fn text(text: &str) -> String {
    String::from_str(Global, text).unwrap()
}

fn vec_of_bytes(bytes: &[u8]) -> Vec<u8> {
    let mut all = Vec::new(Global);
    all.extend_from_slice(bytes).unwrap();
    all
}

/// Changes a map and Rust's own at random, with `keys` different keys, and compares them.
fn compare_maps<K: Key + std::fmt::Debug>(keys: u64, key_of: impl Fn(u64) -> K) {
    let (mut ours, mut theirs) = (BTreeMap::new(Global), StdMap::new());
    let mut random = 1u64;
    for step in 0..50_000u64 {
        random = random
            .wrapping_mul(6_364_136_223_846_793_005)
            .wrapping_add(1);
        let key = (random >> 40) % keys;
        let (key, again) = (key_of(key), key_of(key));
        match random >> 33 & 3 {
            0 => assert_eq!(ours.remove(&key), theirs.remove(&key)),
            1 => assert_eq!(ours.get_mut(&key), theirs.get_mut(&key)),
            _ => {
                let key = key_of((random >> 40) % keys);
                let second = key_of((random >> 40) % keys);
                assert_eq!(ours.insert(key, step).unwrap(), theirs.insert(second, step));
            }
        }
        assert_eq!(
            (ours.len(), ours.get(&again)),
            (theirs.len(), theirs.get(&again))
        );
    }
    assert!(ours.keys().eq(theirs.keys()));
}

/// Returns a random text in which some characters combine with their neighbors.
fn measured_text(random: &mut u64, count: usize) -> std::string::String {
    const PIECES: [&str; 14] = [
        "a",
        "Z",
        " ",
        "1",
        "1\u{fe0f}\u{20e3}",
        "é",
        "世",
        "\u{1f600}",
        "\u{1f468}\u{200d}\u{1f469}",
        "\u{fe0f}",
        "\u{200d}",
        "\u{17d2}\u{1780}",
        "\u{644}\u{627}",
        "\r",
    ];
    let mut text = std::string::String::new();
    for _ in 0..count {
        *random = random
            .wrapping_mul(6_364_136_223_846_793_005)
            .wrapping_add(1);
        text += PIECES[(*random >> 33) as usize % PIECES.len()];
    }
    text
}

#[test]
fn characters_have_the_width_of_their_text() {
    let mut random = 3;
    for count in (0..40).cycle().take(20_000) {
        let text = measured_text(&mut random, count);
        assert_eq!(
            without_memory(|| char_iter_width(text.chars())),
            text.width(),
            "{text:?}"
        );
    }
    for text in [
        "世\u{1f468}\u{200d}\u{1f469}".repeat(700),
        "\u{1f468}\u{200d}".repeat(5_000),
        "é ".repeat(5_000),
    ] {
        assert_eq!(char_iter_width(text.chars()), text.width());
    }
    let wide = "世".repeat(5_000);
    for granted in 0..4 {
        let (width, _) = granting(granted, || char_iter_width(wide.chars()));
        assert_eq!(width, wide.width());
    }
}

/// Checks that a numeral is the longest prefix of a text.
#[test]
fn a_numeral_is_the_longest_at_the_start() {
    for (text, wanted) in [
        ("", 0.0),
        (".", 0.0),
        ("e5", 0.0),
        ("-1", 0.0),
        ("12", 12.0),
        ("12.", 12.0),
        (".5", 0.5),
        ("1.5.2", 1.5),
        ("1e", 1.0),
        ("1e+", 1.0),
        ("1e+x", 1.0),
        ("1e2e3", 100.0),
        ("5.e-1", 0.5),
        ("1E+00002x", 100.0),
        (".e00005", 0.0),
        ("0e99999", 0.0),
        ("1e99999", f32::INFINITY),
        ("1e-99999", 0.0),
        ("1_0", 1.0),
    ] {
        let numeral = without_memory(|| Numeral::scan(text.as_bytes()));
        let read: f64 = without_memory(|| numeral.to_float(false));
        assert_eq!(read.to_bits(), f64::from(wanted).to_bits(), "{text}");
        let read: f32 = without_memory(|| numeral.to_float(true));
        assert_eq!(read.to_bits(), (-wanted).to_bits(), "-{text}");
    }
}

/// Lexes a text and formats its values and its error. Returns `None` if an allocation fails.
fn read_all(text: &str) -> Option<std::vec::Vec<std::string::String>> {
    let lexer = Lexer::new(text);
    let (mut pos, mut found) = (0, [0usize; 4]);
    let error = loop {
        let token = match lexer.parse(Global, &mut pos) {
            Ok(None) => break None,
            Ok(Some(token)) => token,
            Err(error) => break Some(error),
        };
        match token.kind {
            TokenKind::String => found[0] += token.string(Global, text).ok()?.len(),
            TokenKind::Id => match token.name(Global, text).ok()? {
                Ok(name) => found[1] += name.len(),
                Err(_) => found[1] += 1000,
            },
            TokenKind::Integer(kind) => {
                found[2] += token.integer(Global, text, kind).ok()?.val().0.len();
            }
            TokenKind::Float(kind) => drop(token.float(Global, text, kind).ok()?),
            _ => found[3] += 1,
        }
    };
    let message = match &error {
        Some(error) if error.is_out_of_memory() => return None,
        Some(error) => Some(error.message(Global).ok()?),
        None => None,
    };
    // The allocations of the test itself succeed.
    refusing::grant_all();
    let (printed, message) = (
        error.map(|error| error.to_string()),
        message.map(|text| text.as_str().to_owned()),
    );
    Some(std::vec![format!("{found:?} {printed:?} {message:?}")])
}

#[test]
fn the_lexer_answers_each_refused_request() {
    let text = "(module $\"a\\62\" 1_000 0x1_0 \"x\\79\" 0x1.8p3 1_0.5 $b)\t\"é\u{1f600} \\q\"";
    let wanted = read_all(text).unwrap();
    assert!(wanted[0].contains("escape"), "{wanted:?}");
    let refused = (0..)
        .take_while(|granted| granting(*granted, || read_all(text)).0.is_none())
        .count();
    assert!(refused >= 8, "{refused}");
    assert_eq!(granting(refused, || read_all(text)).0, Some(wanted));
}
