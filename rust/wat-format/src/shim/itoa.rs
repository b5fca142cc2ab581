//! Integers as decimal text.

/// The number of digits of `u64::MAX`, the greatest integer of any `usize`.
const MOST_DIGITS: usize = 20;

/// A buffer for the decimal digits of an integer.
#[derive(Clone, Copy, Debug)]
pub struct Buffer([u8; MOST_DIGITS]);

impl Default for Buffer {
    fn default() -> Buffer {
        Buffer::new()
    }
}

impl Buffer {
    /// Returns a buffer without an integer.
    #[inline]
    pub fn new() -> Buffer {
        Buffer([b'0'; MOST_DIGITS])
    }

    /// Formats an integer in decimal without leading zeros, and returns its digits.
    #[inline]
    pub fn format(&mut self, number: usize) -> &str {
        let (mut at, mut rest) = (MOST_DIGITS - 1, number);
        self.0[at] = b'0' + (rest % 10) as u8;
        while rest >= 10 {
            rest /= 10;
            at -= 1;
            self.0[at] = b'0' + (rest % 10) as u8;
        }
        core::str::from_utf8(&self.0[at..]).unwrap_or_default()
    }
}

#[cfg(test)]
mod tests {
    use super::Buffer;
    use std::string::ToString;

    #[test]
    fn a_number_has_the_digits_that_rust_prints() {
        let mut numbers = std::vec![
            0,
            9,
            10,
            99,
            100,
            usize::MAX / 10,
            usize::MAX - 1,
            usize::MAX
        ];
        numbers.extend((0..usize::BITS).map(|bit| (1 << bit) - 1));
        numbers.extend((0..usize::BITS).map(|bit| (usize::MAX >> bit).wrapping_mul(0x9e37_79b9)));
        for number in numbers {
            assert_eq!(Buffer::new().format(number), number.to_string());
        }
    }

    #[test]
    fn a_buffer_has_the_last_number_alone() {
        let mut buffer = Buffer::new();
        assert_eq!(buffer.format(usize::MAX), usize::MAX.to_string());
        assert_eq!(buffer.format(7), "7");
        assert_eq!(Buffer::default().format(10), "10");
    }
}
