//! Escapes of the table for characters that a line cannot contain.

const PICTURES: [(char, char); 6] = [
    ('⏎', '\n'),
    ('␍', '\r'),
    ('␉', '\t'),
    ('␟', '\x1f'),
    ('␡', '\x7f'),
    ('␠', ' '),
];

/// Decodes the text of a test case: pictures of characters, and groups `‹..›`.
pub fn spelled(row: &str) -> String {
    let plain = |c| {
        let pictured = PICTURES.iter().find(|(picture, _)| *picture == c);
        pictured.map_or(c, |(_, plain)| *plain)
    };
    let plain: String = row.chars().map(plain).collect();
    let mut parts = plain.split('‹');
    let before = parts.next().unwrap_or_default().to_owned();
    parts
        .map(spelled_part)
        .fold(before, |text, part| text + &part)
}

/// Decodes the part after a `‹`: a code point in hexadecimal, or a count, `×` and a text to repeat, followed by `›` and plain text.
fn spelled_part(part: &str) -> String {
    let (spelled, after) = part.split_once('›').expect("an end of what is spelled");
    let text = if let Some((count, piece)) = spelled.split_once('×') {
        piece.repeat(count.parse().expect("a count"))
    } else {
        let number = u32::from_str_radix(spelled, 16).expect("a number");
        char::from_u32(number).expect("a character").to_string()
    };
    text + after
}

/// Encodes a result as its line in the table, including an empty one and one that ends with a space.
pub fn drawn(answer: &str) -> String {
    if answer.is_empty() {
        return "nothing".to_owned();
    }
    let picture = |c| {
        let drawn = PICTURES.iter().find(|(_, plain)| *plain == c && c != ' ');
        drawn.map_or(c, |(picture, _)| *picture)
    };
    let line: String = answer.chars().map(picture).collect();
    match line.strip_suffix(' ') {
        Some(before) => format!("{before}␠"),
        None => line,
    }
}
