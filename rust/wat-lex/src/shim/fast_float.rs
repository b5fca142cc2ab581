//! Conversion of decimal numerals to floats: the part of the crate `fast_float` that Rattle's library has.
use core::ops::{Neg, Range};
use core::str::{self, FromStr};

/// Number of digits that decide the rounding: no midpoint of two adjacent 64-bit floats has more than 767 significant digits.
const DECISIVE: usize = 800;

/// The longest prefix of a text that is a decimal numeral: digits, an optional dot with optional digits, and an optional exponent. It may have no
/// digit.
#[derive(Clone, Copy, Debug)]
pub struct Numeral<'a> {
    text: &'a [u8],
    whole: usize,
    fraction: Option<usize>,
    exponent: Option<usize>,
}

impl<'a> Numeral<'a> {
    /// Scans the numeral at the start of `bytes`.
    #[inline]
    pub fn scan(bytes: &'a [u8]) -> Numeral<'a> {
        let whole = digits_end(bytes, 0);
        let has_point = bytes.get(whole) == Some(&b'.');
        let fraction = has_point.then(|| digits_end(bytes, whole + 1));
        let end = fraction.unwrap_or(whole);
        let exponent = exponent_end(bytes, end);
        Numeral {
            text: &bytes[..exponent.unwrap_or(end)],
            whole,
            fraction,
            exponent: exponent.map(|_| end + 1),
        }
    }

    /// Returns the nearest float of the type, with ties to even. Returns 0 if the numeral has no digit.
    #[inline]
    pub fn to_float<F: FromStr + Neg<Output = F> + From<u8>>(&self, negative: bool) -> F {
        let magnitude: F = self.magnitude();
        if negative { -magnitude } else { magnitude }
    }

    #[inline]
    fn magnitude<F: FromStr + From<u8>>(&self) -> F {
        // Rust's library parses an exponent of up to 4 digits exactly, and limits the value of longer ones.
        if self.exponent.is_some_and(|from| self.text.len() - from > 4) {
            return self.with_long_exponent();
        }
        parsed(self.text)
    }

    fn with_long_exponent<F: FromStr + From<u8>>(&self) -> F {
        let whole = 0..self.whole;
        let fraction = self.fraction.map_or(0..0, |end| self.whole + 1..end);
        let digits = || self.digits(&whole).chain(self.digits(&fraction));
        let Some(zeros) = digits().position(|digit| digit != b'0') else {
            return F::from(0);
        };
        // The value is 0.DIGITS times 10 to this power.
        let power = self.power() + whole.len() as i128 - zeros as i128;
        let mut scaled = Scaled::new(power.clamp(-999, 999) as i16);
        for digit in digits().skip(zeros) {
            scaled.push(digit);
        }
        parsed(scaled.text())
    }

    fn digits(&self, range: &Range<usize>) -> impl Iterator<Item = u8> + use<'a> {
        self.text[range.clone()].iter().copied()
    }

    /// Returns the exponent, clamped to a value that rounds to the same float for every possible text.
    fn power(&self) -> i128 {
        let written = self.exponent.map_or(&[][..], |from| &self.text[from..]);
        let (negative, digits) = match written {
            [b'-', digits @ ..] => (true, digits),
            [b'+', digits @ ..] => (false, digits),
            digits => (false, digits),
        };
        let size = digits.iter().fold(0_i128, |size, digit| {
            let next = size * 10 + i128::from(digit - b'0');
            if size < 1 << 100 { next } else { size }
        });
        if negative { -size } else { size }
    }
}

/// A buffer for a numeral `0.DIGITSePOWER`, whose exponent is added last.
struct Scaled {
    bytes: [u8; DECISIVE + 8],
    len: usize,
    power: i16,
}

impl Scaled {
    fn new(power: i16) -> Scaled {
        let mut bytes = [0; DECISIVE + 8];
        bytes[0] = b'.';
        Scaled {
            bytes,
            len: 1,
            power,
        }
    }

    /// Appends a digit. Of the digits after `DECISIVE` it suffices to know if one is not 0.
    fn push(&mut self, digit: u8) {
        if self.len <= DECISIVE {
            self.bytes[self.len] = digit;
            self.len += 1;
        } else if digit != b'0' {
            self.bytes[DECISIVE] = b'1';
        }
    }

    fn text(&mut self) -> &[u8] {
        let size = self.power.unsigned_abs();
        let sign = if self.power < 0 { b'-' } else { b'+' };
        let digit = |at: u16| b'0' + (size / at % 10) as u8;
        let end = [b'e', sign, digit(100), digit(10), digit(1)];
        self.bytes[self.len..self.len + end.len()].copy_from_slice(&end);
        &self.bytes[..self.len + end.len()]
    }
}

/// Parses a numeral with Rust's library, which returns the nearest float of the type.
#[inline]
fn parsed<F: FromStr + From<u8>>(text: &[u8]) -> F {
    let number = str::from_utf8(text).ok().and_then(|text| text.parse().ok());
    number.unwrap_or_else(|| F::from(0))
}

/// Returns the end offset of the digits at `from`.
#[inline]
fn digits_end(bytes: &[u8], from: usize) -> usize {
    let digits = bytes[from..]
        .iter()
        .take_while(|byte| byte.is_ascii_digit());
    from + digits.count()
}

/// Returns the end offset of the exponent whose letter is at `letter`, if it has a digit.
#[inline]
fn exponent_end(bytes: &[u8], letter: usize) -> Option<usize> {
    let (b'e' | b'E') = bytes.get(letter)? else {
        return None;
    };
    let signed = matches!(bytes.get(letter + 1), Some(b'+' | b'-'));
    let from = letter + 1 + usize::from(signed);
    let end = digits_end(bytes, from);
    (end > from).then_some(end)
}
