use crate::random::Random;

/// Parts of tokens, whole tokens, and separators.
const PIECES: &[&str] = &[
    "(",
    ")",
    ";;",
    "(;",
    ";)",
    ";",
    "\n",
    "\r",
    "\r\n",
    " ",
    "\t",
    "\"",
    "\\",
    "\\n",
    "\\u{",
    "}",
    "\\u{1f600}",
    "\\u{d800}",
    "\\u{1__0}",
    "\\ff",
    "\\q",
    "$",
    "@",
    "$x",
    "$\"\\61\"",
    "@\"a\"",
    "(@",
    "(@a",
    "(@name",
    "(@name \"x\")",
    "(@\"n\\61me\" 1)",
    "(@custom",
    "name",
    "module",
    "func",
    "param",
    "i32.add",
    "nan",
    "nan:0x",
    "nan:0x7f_ff",
    "inf",
    "-inf",
    "+",
    "-",
    "0",
    "1",
    "0x",
    "0x1F",
    "_",
    ".",
    "e",
    "E-",
    "p",
    "9999",
    "4294967296",
    "-129",
    "1_000",
    "1.5",
    "0x1.8p3",
    "\u{202e}",
    "\u{2066}",
    "\u{206c}",
    "é",
    "漢",
    "\u{1f600}",
    "\u{301}",
    "\u{200d}",
    "\u{feff}",
    "\u{85}",
    "\u{2028}",
    ",",
    "[",
    "]",
    "{",
    "\0",
    "\x7f",
    "\x1b",
    "abcdefghijklmnop",
    "0123456789abcdef",
    "                ",
    "\"abc\"",
    "\"\\62\"",
    "~",
    "=",
    "!",
    "#%&'*/:<>?^`|",
    "(; (; ;) ;)",
    ";; c\n",
    "a\"b\"",
];

/// Fragments to repeat: each repeated fragment is one token, lies within one, or makes many small ones.
const STRETCHES: &[&str] = &[
    "a", "1", " ", "\n", "\t", "_", "\"", ";", "(", ")", "$", "é", "漢", "x1", "\\n", "\\00", "(;",
    ";)", "(@b ", ".", "-", "\u{301}",
];

/// Integers and NaNs at the limits of their types.
const LIMITS: &[&str] = &[
    "127",
    "128",
    "-128",
    "-129",
    "255",
    "256",
    "0xff",
    "0x100",
    "-0x80",
    "-0x81",
    "32767",
    "32768",
    "-32768",
    "-32769",
    "65535",
    "65536",
    "0xffff",
    "0x1_0000",
    "2147483647",
    "2147483648",
    "-2147483648",
    "-2147483649",
    "4294967295",
    "4294967296",
    "0xffffffff",
    "-0x80000000",
    "9223372036854775807",
    "9223372036854775808",
    "-9223372036854775808",
    "-9223372036854775809",
    "18446744073709551615",
    "18446744073709551616",
    "0xffffffffffffffff",
    "0x10000000000000000",
    "-0",
    "+0",
    "nan:0x0",
    "nan:0x400000",
    "nan:0x800000",
    "nan:0xfffffffffffff",
    "nan:0x10000000000000",
];

const TRIVIA: &[&str] = &[
    "",
    "",
    " ",
    " ",
    "\n",
    "\t",
    "\r\n",
    ";; c\n",
    "(; b ;)",
    "(; (; n ;) ;)",
    "(@a x)",
    "(@a (b) \"c\")",
];

const WORDS: &[&str] = &[
    "func",
    "module",
    "param",
    "import",
    "name",
    "x",
    "i32.const",
    "offset=8",
    "align=",
    "nan",
    "inf",
    ",",
    "=>",
    "$",
    "@",
    "0$y",
];

/// Parts of annotation groups: names with and without escapes, malformed names, closing parentheses, and tokens that only seem to close a group.
const ANNOTATED: &[&str] = &[
    "(@a",
    "(@b",
    "(@name",
    "(@ab",
    "(@\"a\"",
    "(@\"\\61\"",
    "(@\"\\u{61}\"",
    "(@\"n\\61me\"",
    "(@\"\\62\"",
    "(@\"a\\62\"",
    "(@\"é\"",
    "(@\"\\c3\\a9\"",
    "(@\"\\ff\"",
    "(@\"a\\c3\"",
    "(@\"\"",
    "(@\"\\q\"",
    "(@\"",
    "(@",
    "(@ ",
    "(@(",
    "( @a",
    "@a",
    "@\"\\61\"",
    "(",
    "(",
    ")",
    ")",
    ")",
    "))",
    "x",
    "1",
    "$i",
    "$\"\\69\"",
    "$\"\"",
    "\"s\"",
    "\"\\73\"",
    ";; c\n",
    "(; b ;)",
    "(; ) ;)",
    "(;",
    "\"",
    "\"\\q\"",
    "\u{202e}",
    "1_",
];

const IDCHARS: &[u8] = b"abcxyzAZ0129!#$%&'*+-./:<=>?@\\^_`|~";

/// Exclusive upper bounds of the code points of random characters.
pub const ALL: &[u32] = &[0x80, 0x300, 0x3000, 0x1_0000, 0x11_0000];
/// The bounds within which Rattle's library and `unicode-width` agree on the width of each character.
pub const OF_SAME_WIDTH: &[u32] = &[0x80, 0x300, 0x5c8];

/// A generator of random texts, from fragments and from slices of files.
pub struct Texts {
    random: Random,
    files: Vec<String>,
    characters: &'static [u32],
}

impl Texts {
    pub fn new(random: Random, files: Vec<String>, characters: &'static [u32]) -> Texts {
        Texts {
            random,
            files,
            characters,
        }
    }

    pub fn next(&mut self) -> String {
        match self.random.below(12) {
            0..3 => self.joined(),
            3..6 if !self.files.is_empty() => self.cuts(),
            3..7 => self.at_edges(),
            7 => self.characters(),
            8 | 9 => self.one_token(),
            _ => self.groups(),
        }
    }

    /// Returns annotation groups, or any other text.
    pub fn next_annotated(&mut self) -> String {
        if self.random.is_one_in(3) {
            return self.next();
        }
        let mut text = String::new();
        for _ in 0..self.random.below(14) {
            text += self.random.one_of(ANNOTATED);
            text += self
                .random
                .one_of(&["", " ", " ", "\n", ";; c\n", "(; b ;)"]);
        }
        if self.random.is_one_in(2) {
            text += &")".repeat(self.random.below(4));
        }
        text
    }

    /// Returns a sequence of fragments.
    fn joined(&mut self) -> String {
        (0..self.random.below(12))
            .map(|_| self.random.one_of(PIECES))
            .collect()
    }

    /// Returns slices of one or two files, with fragments inserted.
    fn cuts(&mut self) -> String {
        let mut text = self.cut();
        if self.random.is_one_in(2) {
            text += &self.cut();
        }
        for _ in 0..self.random.below(4) {
            let most = text.len() + 1;
            let at = start_of_character(&text, self.random.below(most));
            text.insert_str(at, self.random.one_of(PIECES));
        }
        text
    }

    /// Returns a slice of a file, of up to 200 bytes.
    fn cut(&mut self) -> String {
        let number = self.random.below(self.files.len());
        let file = &self.files[number];
        let begin = start_of_character(file, self.random.below(file.len() + 1));
        let end = (begin + self.random.below(200)).min(file.len());
        file[begin..start_of_character(file, end)].to_owned()
    }

    /// Returns fragments between long runs, so that tokens cross the edges of 16-byte blocks.
    fn at_edges(&mut self) -> String {
        let mut text = String::new();
        for _ in 0..=self.random.below(8) {
            let stretch = self.random.one_of(STRETCHES);
            text += &stretch.repeat(self.random.below(65));
            text += self.random.one_of(PIECES);
        }
        text
    }

    /// Returns a string, a comment or plain text of random characters. Most have a lexical error, whose column is printed.
    fn characters(&mut self) -> String {
        let mut text = self
            .random
            .one_of(&["\"", ";;", "(;", "", "(; ;) \""])
            .to_owned();
        for _ in 0..self.random.below(20) {
            text.push(self.character());
        }
        text + self.random.one_of(&["\\q\"", "\"", "\n", ";)", "\"\\q"])
    }

    /// Returns a random character; smaller code points are more frequent.
    fn character(&mut self) -> char {
        let bound = self.random.one_of(self.characters);
        char::from_u32(self.random.below(bound as usize) as u32).unwrap_or('\u{fffd}')
    }

    /// Returns a number, a string, an identifier or a keyword between trivia, for a type to parse.
    fn one_token(&mut self) -> String {
        let before = self.random.one_of(TRIVIA);
        let token = self.token();
        let after = self.random.one_of(TRIVIA);
        format!("{before}{token}{after}")
    }

    fn token(&mut self) -> String {
        match self.random.below(10) {
            0..3 => self.number(),
            3 => self.random.one_of(LIMITS).to_owned(),
            4 | 5 => self.string(),
            6 => self.name('$'),
            7 => format!("(func {})", self.number()),
            8 => self.name('@'),
            _ => self.random.one_of(WORDS).to_owned(),
        }
    }

    fn number(&mut self) -> String {
        let mut text = self.random.one_of(&["", "", "+", "-"]).to_owned();
        if self.random.is_one_in(10) {
            text +=
                self.random
                    .one_of(&["inf", "nan", "nan:0x1", "nan:0x", "nan:0x7_f", "0x", "."]);
            return text;
        }
        let digits = self
            .random
            .one_of(&["0123456789", "0123456789abcdefABCDEF"]);
        let is_hexadecimal = digits.len() > 10;
        text += if is_hexadecimal { "0x" } else { "" };
        text += &self.digits(digits, 22);
        if self.random.is_one_in(3) {
            text.push('.');
            text += &self.digits(digits, 12);
        }
        if self.random.is_one_in(3) {
            text += self.random.one_of(if is_hexadecimal {
                &["p", "P-", "p+"]
            } else {
                &["e", "E-", "e+"]
            });
            text += &self.digits("0123456789", 4);
        }
        text
    }

    /// Returns digits with underscores, some of which are misplaced.
    fn digits(&mut self, of: &str, most: usize) -> String {
        let mut text = String::new();
        let most = self.random.one_of(&[1, 3, most]);
        for _ in 0..=self.random.below(most) {
            text.push(char::from(self.random.one_of(of.as_bytes())));
            if self.random.is_one_in(8) {
                text.push('_');
            }
        }
        if self.random.is_one_in(8) {
            text
        } else {
            text.trim_end_matches('_').to_owned()
        }
    }

    fn string(&mut self) -> String {
        let mut text = "\"".to_owned();
        for _ in 0..self.random.below(12) {
            text += &self.string_element();
        }
        text + if self.random.is_one_in(20) { "" } else { "\"" }
    }

    fn string_element(&mut self) -> String {
        match self.random.below(10) {
            0..4 => "abc de".repeat(self.random.below(8)),
            4 => self
                .random
                .one_of(&["\\n", "\\t", "\\r", "\\'", "\\\"", "\\\\"])
                .to_owned(),
            5 => format!("\\{:02x}", self.random.below(256)),
            6 => format!("\\u{{{:x}}}", self.random.below(0x300)),
            7 => format!("\\u{{{:X}}}", self.random.below(0x11_2000)),
            8 => self.random.one_of(PIECES).to_owned(),
            _ => self.character().to_string(),
        }
    }

    /// Returns an identifier or an annotation.
    fn name(&mut self, first: char) -> String {
        if self.random.is_one_in(3) {
            return format!("{first}{}", self.string());
        }
        let chars = (0..self.random.below(20)).map(|_| char::from(self.random.one_of(IDCHARS)));
        let mut name = String::from(first);
        name.extend(chars);
        name
    }

    /// Returns tokens in groups. Some groups are annotations, and some are not closed.
    fn groups(&mut self) -> String {
        let (mut text, mut open) = (String::new(), 0);
        for _ in 0..self.random.below(16) {
            text += &match self.random.below(8) {
                0 | 1 => "(".to_owned(),
                2 => ["(@name", "(@custom", "(@a", "(@\"b\""][self.random.below(4)].to_owned(),
                3 if open > 0 => ")".to_owned(),
                _ => self.token(),
            };
            text += self
                .random
                .one_of(&[" ", " ", "\n", "", ";; c\n", "(; b ;)"]);
            open = text
                .matches('(')
                .count()
                .saturating_sub(text.matches(')').count());
        }
        if self.random.is_one_in(4) {
            text
        } else {
            text + &")".repeat(open)
        }
    }
}

/// Returns the offset, rounded down to a char boundary.
fn start_of_character(text: &str, mut place: usize) -> usize {
    while !text.is_char_boundary(place) {
        place -= 1;
    }
    place
}
