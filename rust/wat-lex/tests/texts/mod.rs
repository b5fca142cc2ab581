//! Random texts of fragments that interact in many ways.

const PARTS: [&str; 44] = [
    "(",
    ")",
    ";",
    ";;",
    "(;",
    ";)",
    "\"",
    "\"",
    "\\",
    "\\\"",
    "\\\\",
    "a",
    "$",
    "@",
    "1",
    "_",
    "\n",
    "\r",
    " ",
    "\t",
    "}",
    "\\u{",
    "\u{202e}",
    "é",
    "漢",
    "\u{1f600}",
    "0x",
    "1.5",
    "e+",
    "nan:0x",
    "-",
    "f",
    "module",
    "$x",
    "@name",
    "\"ab\"",
    "$\"",
    "@\"",
    "\\ff",
    "\\61",
    ",",
    "\u{0}",
    "; ",
    ";; \u{2066}",
];

/// A pseudorandom number generator.
pub struct Random(pub u64);

impl Random {
    pub fn below(&mut self, count: usize) -> usize {
        self.0 = self
            .0
            .wrapping_mul(6_364_136_223_846_793_005)
            .wrapping_add(1);
        (self.0 >> 33) as usize % count
    }

    /// Returns a text of fewer than `parts` fragments.
    pub fn text(&mut self, parts: usize) -> String {
        let count = self.below(parts);
        (0..count).map(|_| PARTS[self.below(PARTS.len())]).collect()
    }
}
