//! Compares `F32` and `F64` with exact arithmetic: each number must be between the two midpoints next to the float that it is rounded to.

// Integers are split into their parts.
#![allow(clippy::cast_possible_truncation, clippy::cast_sign_loss)]

use std::cmp::Ordering;
use wat_parser::floats;
use wat_parser::parser::{self, ParseBuffer};
use wat_parser::shim::alloc::Global;
use wat_parser::token::{F32, F64};

fn f32_bits(text: &str) -> Option<u64> {
    let buffer = ParseBuffer::new(text).unwrap();
    let read = parser::parse::<F32>(&buffer);
    check_error(read.as_ref().err());
    read.ok().map(|float| u64::from(float.bits))
}

fn f64_bits(text: &str) -> Option<u64> {
    let buffer = ParseBuffer::new(text).unwrap();
    let read = parser::parse::<F64>(&buffer);
    check_error(read.as_ref().err());
    read.ok().map(|float| float.bits)
}

fn check_error(error: Option<&wat_parser::Error>) {
    if let Some(error) = error {
        assert_eq!(
            error.message(),
            "invalid float value: constant out of range"
        );
    }
}

/// An integer of arbitrary size, the lowest 32 bits first.
#[derive(Clone, Debug)]
struct Whole(Vec<u32>);

impl Whole {
    fn of(number: u64) -> Whole {
        Whole(vec![number as u32, (number >> 32) as u32])
    }

    /// Multiplies the integer by `factor` and adds `more`.
    fn times(&mut self, factor: u32, more: u32) {
        let mut carry = u64::from(more);
        for part in &mut self.0 {
            carry += u64::from(*part) * u64::from(factor);
            *part = carry as u32;
            carry >>= 32;
        }
        self.0.push(carry as u32);
    }

    fn power(mut self, base: u32, exponent: u32) -> Whole {
        for _ in 0..exponent {
            self.times(base, 0);
            while self.0.last() == Some(&0) {
                self.0.pop();
            }
        }
        self
    }

    fn compare(&self, other: &Whole) -> Ordering {
        let parts = self.0.len().max(other.0.len());
        let part = |whole: &Whole, at: usize| whole.0.get(at).copied().unwrap_or(0);
        (0..parts)
            .rev()
            .map(|at| part(self, at).cmp(&part(other, at)))
            .find(|order| order.is_ne())
            .unwrap_or(Ordering::Equal)
    }
}

/// A positive number: `count` times `base` to the power of `exponent`.
#[derive(Clone, Debug)]
struct Exact {
    count: Whole,
    base: u32,
    exponent: i32,
}

impl Exact {
    /// Parses digits with an optional point in base 10 or 16, times 10 or 2 to the power of `exponent`.
    fn of_digits(digits: &str, base: u32, exponent: i32) -> Exact {
        let mut count = Whole::of(0);
        let mut behind = None;
        for c in digits.chars() {
            match c.to_digit(base) {
                Some(digit) => {
                    count.times(base, digit);
                    behind = behind.map(|behind| behind + 1);
                }
                None => behind = Some(0),
            }
        }
        let (base, a_digit) = if base == 16 { (2, 4) } else { (10, 1) };
        Exact {
            count,
            base,
            exponent: exponent - a_digit * behind.unwrap_or(0),
        }
    }

    /// Compares the number with `count` times 2 to the power of `exponent`.
    fn compare(&self, count: u64, exponent: i32) -> Ordering {
        let scaled = |whole: Whole, base: u32, exponent: i32| {
            whole.power(base, u32::try_from(exponent).unwrap_or(0))
        };
        let left = scaled(self.count.clone(), self.base, self.exponent);
        let left = scaled(left, 2, -exponent);
        let right = scaled(Whole::of(count), 2, exponent);
        let right = scaled(right, self.base, -self.exponent);
        left.compare(&right)
    }
}

struct Format {
    significand: u32,
    /// The exponent of the smallest difference between two floats.
    least: i32,
    infinity: u64,
}

const SINGLE: Format = Format {
    significand: 23,
    least: -149,
    infinity: 0xff << 23,
};

const DOUBLE: Format = Format {
    significand: 52,
    least: -1074,
    infinity: 0x7ff << 52,
};

impl Format {
    /// Compares a number with the midpoint between the float of these bits and the next one.
    fn compare(&self, exact: &Exact, bits: u64) -> Ordering {
        let stored = bits & ((1 << self.significand) - 1);
        let raised = (bits >> self.significand) as i32;
        let (count, exponent) = match raised {
            0 => (stored, self.least),
            raised => (stored + (1 << self.significand), self.least + raised - 1),
        };
        exact.compare(2 * count + 1, exponent - 1)
    }

    /// Returns `true` if a number rounds to these bits, or to infinity if `bits` is `None`.
    fn fits(&self, exact: &Exact, bits: Option<u64>) -> bool {
        let bits = bits.unwrap_or(self.infinity);
        let is_even = bits & 1 == 0;
        let within = |order: Ordering| order.is_lt() || order.is_eq() && is_even;
        (bits == self.infinity || within(self.compare(exact, bits)))
            && (bits == 0 || within(self.compare(exact, bits - 1).reverse()))
    }
}

fn check(digits: &str, base: u32, exponent: i32) {
    let (prefix, letter) = if base == 16 { ("0x", 'p') } else { ("", 'e') };
    let exact = Exact::of_digits(digits, base, exponent);
    for sign in ["", "-", "+"] {
        let text = format!("{sign}{prefix}{digits}{letter}{exponent}");
        let (single, double) = (f32_bits(&text), f64_bits(&text));
        let minus = |bits: u64, sign_bit: u64| {
            assert_eq!(bits & sign_bit != 0, sign == "-", "{text}");
            bits & !sign_bit
        };
        let single = single.map(|bits| minus(bits, 1 << 31));
        let double = double.map(|bits| minus(bits, 1 << 63));
        assert!(SINGLE.fits(&exact, single), "{text}: {single:x?}");
        assert!(DOUBLE.fits(&exact, double), "{text}: {double:x?}");
    }
}

/// A pseudorandom number generator with a fixed seed.
struct Numbers(u64);

impl Numbers {
    fn next(&mut self, below: u64) -> u64 {
        self.0 ^= self.0 << 13;
        self.0 ^= self.0 >> 7;
        self.0 ^= self.0 << 17;
        (self.0 >> 11) % below
    }
}

/// Checks random digits of both bases, with a point anywhere and zeros at both ends.
#[test]
fn any_digits() {
    let mut numbers = Numbers(0x9e37_79b9_7f4a_7c15);
    for round in 0..5_000 {
        let base = if round % 2 == 0 { 16 } else { 10 };
        let mut digits = String::from(if numbers.next(2) == 0 { "0" } else { "1" });
        let (len, zeros) = (numbers.next(30), 1 + numbers.next(4));
        for _ in 0..len {
            let digit = numbers.next(u64::from(base)) * u64::from(numbers.next(zeros) == 0);
            digits.push(char::from_digit(digit as u32, base).unwrap());
        }
        digits.insert(1 + numbers.next(digits.len() as u64) as usize, '.');
        let far = if base == 16 { 1200 } else { 350 };
        let near = [2, 30, 160, far][numbers.next(4) as usize];
        let exponent = numbers.next(2 * near) as i32 - near as i32;
        check(&digits, base, exponent);
    }
}

/// Checks midpoints of two floats and numbers slightly above and below them, from the smallest to the largest.
#[test]
fn midpoints() {
    let mut numbers = Numbers(0x1234_5678_9abc_def1);
    for format in [SINGLE, DOUBLE] {
        let greatest = (format.infinity >> format.significand) as i32;
        for round in 0..500 {
            let stored = match round % 4 {
                0 => 0,
                1 => (1 << format.significand) - 1,
                _ => numbers.next(1 << format.significand),
            };
            let raised = [0, 1, 2, greatest - 1, numbers.next(greatest as u64) as i32][round % 5];
            let hidden = u64::from(raised > 0) << format.significand;
            let twice = 2 * (stored + hidden) + 1;
            let exponent = format.least + (raised - 1).max(0) - 1;
            for ending in ["", ".", ".0", ".00000000000000000001", ".8"] {
                check(&format!("{twice:x}{ending}"), 16, exponent);
                check(&format!("000{twice:x}0000{ending}"), 16, exponent - 16);
            }
            let below = format!("{:x}.ffffffffffffffffffffffff", twice - 1);
            check(&below, 16, exponent);
        }
    }
}

/// Compares a million decimals of all lengths and exponents with Rust's library, which rounds correctly.
#[test]
fn decimals_as_rust_reads_them() {
    let mut numbers = Numbers(0x0f1e_2d3c_4b5a_6978);
    for _ in 0..1_000_000 {
        let mut text = String::new();
        let len = 1 + numbers.next(24);
        let point = 1 + numbers.next(2 * len);
        for place in 0..len {
            if place == point {
                text.push('.');
            }
            text.push(char::from(b'0' + numbers.next(10) as u8));
        }
        if numbers.next(2) == 0 {
            let near = [20, 60, 400][numbers.next(3) as usize];
            let size = numbers.next(near).to_string();
            text += ["e", "e-"][numbers.next(2) as usize];
            text += &size;
        }
        let (single, double): (f32, f64) = (text.parse().unwrap(), text.parse().unwrap());
        let single = single.is_finite().then_some(single.to_bits());
        let double = double.is_finite().then_some(double.to_bits());
        assert_eq!(floats::f32_bits(Global, &text), Ok(single), "{text}");
        assert_eq!(floats::f64_bits(Global, &text), Ok(double), "{text}");
    }
}

/// Checks zeros that compensate for an exponent, in texts of up to a million bytes.
#[test]
fn zeros_against_exponents() {
    for len in [9_990, 65_540, 1_000_000] {
        let zeros = "0".repeat(len);
        let nines = "9".repeat(len);
        let after = len + 1;
        for (text, wanted) in [
            (format!("0.{zeros}1e{after}"), "1"),
            (
                format!("0.{zeros}123456789012345678901e+{len}"),
                "0.123456789012345678901",
            ),
            (format!("0.{zeros}1e{}", len - 300), "1e-301"),
            (format!("1{zeros}e-{len}"), "1"),
            (format!("1{zeros}.5e-{}", len + 320), "1e-320"),
            (format!("0{zeros}.{zeros}25e{after}"), "2.5"),
            (
                format!("9007199254740993.{zeros}e-00000"),
                "9007199254740992",
            ),
            (
                format!("9007199254740993.{zeros}1e-00000"),
                "9007199254740994",
            ),
            (
                format!("9007199254740993{zeros}1e-{after}"),
                "9007199254740994",
            ),
            (format!("0.{nines}e-00000"), "1"),
            (format!("{nines}e-{}", len - 309), "1e309"),
        ] {
            let wanted: f64 = wanted.parse().unwrap();
            let wanted = wanted.is_finite().then_some(wanted.to_bits());
            let start = text.trim_matches(['0', '9']);
            assert_eq!(
                floats::f64_bits(Global, &text),
                Ok(wanted),
                "{len}: {start}"
            );
        }
    }
}

#[test]
fn exponents_of_any_size() {
    for far in [
        "999999999",
        "99999999999999999999999999",
        "9223372036854775807",
    ] {
        for (digits, sign) in [("0x0.0", ""), ("0x0", "-"), ("0x123.4", "-"), ("0x.8", "-")] {
            let text = format!("{digits}p{sign}{far}").replace("0x.8", "0x0.8");
            assert_eq!(
                (f32_bits(&text), f64_bits(&text)),
                (Some(0), Some(0)),
                "{text}"
            );
        }
        let text = format!("0x0.0000000001p{far}");
        assert_eq!((f32_bits(&text), f64_bits(&text)), (None, None), "{text}");
        assert_eq!(f64_bits(&format!("1e-{far}")), Some(0));
        assert_eq!(f64_bits(&format!("1e{far}")), None);
        assert_eq!(f64_bits(&format!("-0e{far}")), Some(1 << 63));
    }
    let zeros = "0".repeat(10_000);
    assert_eq!(f32_bits(&format!("0x1{zeros}p-40000")), Some(0x3f80_0000));
    assert_eq!(f32_bits(&format!("0x0.{zeros}1p40004")), Some(0x3f80_0000));
    assert_eq!(
        f64_bits(&format!("0x1{zeros}1p-40004")),
        Some(0x3ff0_0000_0000_0000)
    );
    assert_eq!(f64_bits(&format!("0x1{zeros}")), None);
}

#[test]
fn integers_infinities_and_payloads() {
    for (text, single, double) in [
        ("1", Some(0x3f80_0000), Some(0x3ff0_0000_0000_0000)),
        ("-0", Some(0x8000_0000), Some(0x8000_0000_0000_0000)),
        ("+1_0", Some(0x4120_0000), Some(0x4024_0000_0000_0000)),
        ("-0xA_0", Some(0xc320_0000), Some(0xc064_0000_0000_0000)),
        ("16777217", Some(0x4b80_0000), Some(0x4170_0000_1000_0000)),
        ("inf", Some(0x7f80_0000), Some(0x7ff0_0000_0000_0000)),
        ("-inf", Some(0xff80_0000), Some(0xfff0_0000_0000_0000)),
        ("nan", Some(0x7fc0_0000), Some(0x7ff8_0000_0000_0000)),
        ("-nan", Some(0xffc0_0000), Some(0xfff8_0000_0000_0000)),
        ("nan:0x1", Some(0x7f80_0001), Some(0x7ff0_0000_0000_0001)),
        (
            "-nan:0x7f_ffff",
            Some(0xffff_ffff),
            Some(0xfff0_0000_007f_ffff),
        ),
        ("nan:0x80_0000", None, Some(0x7ff0_0000_0080_0000)),
        ("nan:0xfffffffffffff", None, Some(0x7fff_ffff_ffff_ffff)),
        ("nan:0x10000000000000", None, None),
        ("nan:0x10000000000000001", None, None),
        (
            "nan:0x000000000000000000001",
            Some(0x7f80_0001),
            Some(0x7ff0_0000_0000_0001),
        ),
        ("nan:0x0", None, None),
        ("1e39", None, Some(0x4807_8287_f49c_4a1d)),
        ("0x1p128", None, Some(0x47f0_0000_0000_0000)),
        (
            "0x1.fffffe_8p127",
            Some(0x7f7f_ffff),
            Some(0x47ef_ffff_e800_0000),
        ),
        ("0x1.ffffffp127", None, Some(0x47ef_ffff_f000_0000)),
    ] {
        assert_eq!((f32_bits(text), f64_bits(text)), (single, double), "{text}");
    }
    for text in ["(", "\"1\"", "a", ""] {
        let buffer = ParseBuffer::new(text).unwrap();
        let error = parser::parse::<F32>(&buffer).unwrap_err();
        assert_eq!(error.message(), "expected a float");
    }
}
