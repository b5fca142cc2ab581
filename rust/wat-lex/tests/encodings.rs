//! Encodings of values in the binary format, and the contents of a buffer after a value that has no encoding.

mod refusing;

use refusing::refusing_in_turn;
use wat_lex::proved::encode::{Encode, EncodeError, encode_slice, encode_str, slice_fits, str_fits};
use wat_lex::shim::alloc::Global;
use wat_lex::shim::boxed::Box;
use wat_lex::shim::string::String;
use wat_lex::shim::vec::Vec;

/// Creates a buffer with one byte.
fn buffer() -> Vec<u8> {
    vec![0xff].into()
}

fn boxed<T>(value: T) -> Box<T> {
    Box::new(Global, value).ok().expect("a box")
}

fn list<T>(items: impl Into<std::vec::Vec<T>>) -> Vec<T> {
    items.into().into()
}

fn text() -> String {
    "ab".to_string().into()
}

#[test]
fn values_have_their_bytes() {
    let numbers = list([1u32, 300]);
    let rows: [(&str, &dyn Encode, &[u8]); 14] = [
        ("u8", &0xc0u8, &[0xc0]),
        ("u32", &u32::MAX, &[0xff, 0xff, 0xff, 0xff, 0x0f]),
        ("u64", &624_485u64, &[0xe5, 0x8e, 0x26]),
        ("i32", &-123_456i32, &[0xc0, 0xbb, 0x78]),
        ("i64", &64i64, &[0xc0, 0x00]),
        ("usize", &128usize, &[0x80, 0x01]),
        ("list", &numbers, &[0x02, 0x01, 0xac, 0x02]),
        ("no items", &list::<u32>([]), &[0x00]),
        ("reference", &&numbers, &[0x02, 0x01, 0xac, 0x02]),
        ("text", &text(), &[0x02, 0x61, 0x62]),
        ("box", &boxed(text()), &[0x02, 0x61, 0x62]),
        ("pair", &(5u8, 64i32), &[0x05, 0xc0, 0x00]),
        ("three", &(1u8, -1i64, 128usize), &[0x01, 0x7f, 0x80, 0x01]),
        (
            "pairs",
            &list([(5u8, 300u32); 2]),
            &[0x02, 0x05, 0xac, 0x02, 0x05, 0xac, 0x02],
        ),
    ];
    for (name, value, bytes) in rows {
        let mut e = buffer();
        assert_eq!(value.encode(&mut e), Ok(()), "{name}");
        assert_eq!(*e, [&[0xff], bytes].concat(), "{name}");
        assert!(value.fits(), "{name}");
    }
}

#[test]
fn slices_and_texts_are_written_one_after_another() {
    let mut e = buffer();
    encode_slice(&[1u32, 300], &mut e).unwrap();
    encode_str("ab", &mut e).unwrap();
    encode_slice::<u32>(&[], &mut e).unwrap();
    encode_str("", &mut e).unwrap();
    assert_eq!(
        *e,
        [0xff, 0x02, 0x01, 0xac, 0x02, 0x02, 0x61, 0x62, 0x00, 0x00]
    );
    assert!(slice_fits(&[1u32, 300]) && slice_fits::<usize>(&[]));
    assert!(str_fits("ab") && str_fits(""));
}

#[test]
fn long_texts_and_lists_are_written_after_their_length() {
    let text = "t".repeat(1_100_000);
    let wanted = [&[0xe0, 0x91, 0x43], text.as_bytes()].concat();
    let (mut of_text, mut of_list) = (Vec::new(Global), Vec::new(Global));
    encode_str(&text, &mut of_text).unwrap();
    encode_slice(text.as_bytes(), &mut of_list).unwrap();
    assert!(*of_text == wanted && *of_list == wanted);
}

/// The smallest and the largest length that have no encoding.
#[cfg(target_pointer_width = "64")]
const TOO_LONG: [usize; 2] = [1 << 32, usize::MAX];

#[cfg(target_pointer_width = "64")]
#[test]
fn a_value_that_is_too_long_leaves_the_buffer() {
    let [least, most] = TOO_LONG;
    let rows: [(&str, &dyn Encode); 12] = [
        ("usize", &least),
        ("reference", &&least),
        ("box", &boxed(least)),
        ("second of two", &(5u8, least)),
        ("first of two", &(most, 5u8)),
        ("first of three", &(most, 5u8, 5u8)),
        ("second of three", &(5u8, most, 5u8)),
        ("third of three", &(5u8, 5u8, most)),
        ("item", &list([1, most, 1])),
        ("last item", &list([1, least])),
        ("item of an item", &list([list([1]), list([most])])),
        ("item of a part", &(5u8, list([(5u8, most)]))),
    ];
    for (name, value) in rows {
        let mut e = buffer();
        assert!(!value.fits(), "{name}");
        assert_eq!(value.encode(&mut e), Err(EncodeError::TooLong), "{name}");
        assert_eq!(*e, [0xff], "{name}");
    }
    let mut e = buffer();
    assert!(!slice_fits(&[1, least]));
    assert_eq!(encode_slice(&[1, least], &mut e), Err(EncodeError::TooLong));
    assert_eq!(*e, [0xff]);
}

#[cfg(target_pointer_width = "64")]
#[test]
fn a_length_that_the_format_has_bytes_for_fits() {
    let most = TOO_LONG[0] - 1;
    let rows: [(&str, &dyn Encode); 6] = [
        ("usize", &most),
        ("box of a reference", &boxed(&most)),
        ("list", &list([most, 0])),
        ("two", &(i32::MIN, most)),
        ("three", &(5u8, u32::MAX, u64::MAX)),
        ("least", &i64::MIN),
    ];
    for (name, value) in rows {
        assert!(value.fits(), "{name}");
        assert_eq!(value.encode(&mut buffer()), Ok(()), "{name}");
    }
}

#[test]
fn a_refused_request_leaves_the_buffer() {
    let numbers = list([300u32; 60]);
    let pair = (5u8, list([300u32; 60]));
    let rows: [(&str, &dyn Encode, usize); 2] = [("list", &numbers, 121), ("pair", &pair, 122)];
    for (name, value, count) in rows {
        let (refused, (answer, left)) = refusing_in_turn(buffer, |e| value.encode(e));
        assert_eq!((answer, left.len()), (Ok(()), 1 + count), "{name}");
        for (answer, left) in refused {
            assert_eq!(answer, Err(EncodeError::Memory), "{name}");
            assert_eq!(*left, [0xff], "{name}");
        }
    }
}
