//! Parses of whole texts as each type.

use crate::settings::Settings;
use crate::sides::{TEXT, layer, proved};
use crate::texts::{BLANKS, FAULTS, Random, TOKENS, rounds};

/// Parses a text as each type through both sides. Returns the number of types that accept it.
fn compare(text: &str, settings: &Settings) -> usize {
    TEXT.set(text.to_owned());
    let mut accepted = 0;
    for (number, (ours, theirs)) in layer::READINGS.iter().zip(&proved::READINGS).enumerate() {
        let (buffer, proved) = (settings.buffer(text), settings.proved_buffer(text));
        let told = (ours.whole)(&buffer);
        assert_eq!(
            told,
            (theirs.whole)(&proved),
            "{text:?} {settings:?} {number}"
        );
        accepted += usize::from(!told.starts_with("error "));
    }
    accepted
}

#[test]
fn integers_at_the_bounds_of_each_type() {
    for bits in [7, 8, 15, 16, 31, 32, 63, 64] {
        for value in [(1_u128 << bits) - 1, 1 << bits, (1 << bits) + 1] {
            for sign in ["", "+", "-"] {
                let digits = format!("{value:x}");
                let (first, others) = digits.split_at(1);
                compare(&format!("{sign}{value}"), &Settings::default());
                compare(&format!("{sign}0x{digits}"), &Settings::default());
                compare(
                    &format!(" {sign}0x0{first}_0{others}"),
                    &Settings::default(),
                );
            }
        }
    }
}

/// Checks each token alone, after blanks, and with each kind of text after it.
#[test]
fn tokens_with_something_after_them() {
    let mut accepted = 0;
    for token in TOKENS.iter().chain(FAULTS) {
        for after in [
            "", " ", ")", " )", " 2", "(", "(@a)", " (@", " (;", "\"", "\u{e9}",
        ] {
            accepted += compare(&format!(" {token}{after}"), &Settings::default());
        }
    }
    for blank in BLANKS {
        accepted += compare(blank, &Settings::default());
    }
    println!("{accepted} accepted");
    assert!(accepted > 1_000, "{accepted}");
}

#[test]
fn random_texts() {
    let mut random = Random(3);
    for _ in 0..rounds(400) {
        let (text, settings) = (random.text(5), Settings::random(&mut random));
        compare(&text, &settings);
    }
}

/// Checks that a string of each byte, and strings of each length, stay valid while others are parsed.
#[test]
fn strings_of_each_byte_and_length() {
    for byte in 0..=255_u8 {
        compare(&format!("\"\\{byte:02x}\""), &Settings::default());
    }
    for count in 0..80 {
        compare(
            &format!("\"\\00{}\"", "b".repeat(count)),
            &Settings::default(),
        );
        compare(
            &format!("$\"\\61{}\"", "é".repeat(count)),
            &Settings::default(),
        );
    }
}
