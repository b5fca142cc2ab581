//! Random texts.

use std::env;

/// A pseudorandom number generator.
pub struct Random(pub u64);

/// Tokens of a format, valid and invalid ones.
pub const TOKENS: &[&str] = &[
    "(",
    "(",
    "(",
    "(",
    ")",
    ")",
    ")",
    ")",
    ")",
    "(func $x)",
    "(func 1)",
    "(module 1)",
    "func",
    "module",
    "context.get",
    "context.set",
    "if",
    "i32.trunc_f32_s",
    "i32.trunc_f64_s",
    "x",
    "$x",
    "$y",
    "$\"\\61 b\"",
    "$",
    "$\"\"",
    "$\"\\ff\"",
    "@a",
    "@aa",
    "@name",
    "@\"a\"",
    "@\"\\61\"",
    "@\"\\ff\"",
    "@",
    "@\"\"",
    "(@a b)",
    "(@a \"x\" 1)",
    "(@aa (1))",
    "(@\"\\61\" 2)",
    "(@\"\\ff\")",
    "(@)",
    "(@a",
    "(@other (x) $y)",
    "(@name \"x\")",
    "(@name \"\\c3\\a9\")",
    "(@name \"\\ff\")",
    "(@name 1)",
    "(@custom)",
    "(@producers x)",
    "(@dylink.0 1)",
    "(@metadata.code.branch_hint)",
    "0",
    "7",
    "-1",
    "+1",
    "-0",
    "127",
    "128",
    "-128",
    "-129",
    "255",
    "256",
    "65535",
    "65536",
    "0xffff_ffff",
    "4294967296",
    "-2147483649",
    "18446744073709551615",
    "18446744073709551616",
    "1.5",
    "-inf",
    "nan",
    "nan:0x7f",
    "1e99",
    "1e999",
    "0x1.8p-1_0",
    "1.25e+0000012345",
    "\"s\"",
    "\"\"",
    "\"\\80\"",
    "\"\\c3\\a9 long enough\"",
    "\"é\"",
    "\"\\u{1__0}\"",
    ",",
    ";",
    "=>",
    "<=>",
    "=>=",
    "[",
];

/// What is between two tokens, mostly blanks.
pub const BLANKS: &[&str] = &[
    " ",
    " ",
    " ",
    " ",
    " ",
    " ",
    " ",
    "\n",
    "\t",
    "\r\n",
    "",
    ";; c\n",
    "(; c ;)",
    " (; (; ;) ;) ",
    " ;; é\n",
    "(;\u{202e};)",
    ";;\u{2066}\n",
    " (@u (x) \"y\") ",
    "(@u)",
    "(@\"u\\62\")",
    "(;;)",
    "   ",
    "\n\n",
    " ; ",
];

/// Lexical errors.
pub const FAULTS: &[&str] = &[
    "(;",
    "\"",
    "\"\\q\"",
    "é",
    "\"\u{202e}\"",
    "\"\\u{d800}\"",
    "\u{0}",
    "\"a\nb\"",
];

impl Random {
    pub fn below(&mut self, count: usize) -> usize {
        self.0 = self
            .0
            .wrapping_mul(6_364_136_223_846_793_005)
            .wrapping_add(1);
        (self.0 >> 33) as usize % count
    }

    /// Returns `true` once in `count` times.
    pub fn once_in(&mut self, count: usize) -> bool {
        self.below(count) == 0
    }

    pub fn pick<T: Copy>(&mut self, items: &[T]) -> T {
        items[self.below(items.len())]
    }

    /// Returns a text of fewer than `most` tokens. Some texts have blanks only, and some have a lexical error.
    pub fn text(&mut self, most: usize) -> String {
        let (count, is_blank) = (self.below(most), self.once_in(16));
        let mut text = String::new();
        for _ in 0..count {
            text += self.pick(BLANKS);
            text += if is_blank { "" } else { self.pick(TOKENS) };
        }
        text += self.pick(BLANKS);
        if self.once_in(4) {
            text += self.pick(FAULTS);
        }
        text
    }

    /// Returns a sequence of values for a setter; the last is the setting.
    pub fn settings(&mut self) -> Vec<bool> {
        let count = self.below(3);
        (0..count).map(|_| self.once_in(2)).collect()
    }
}

/// Returns the number of rounds of a test: `count`, multiplied by `ROUNDS`.
pub fn rounds(count: usize) -> usize {
    env::var("ROUNDS").map_or(1, |rounds| rounds.parse::<usize>().expect("a number")) * count
}
