use crate::gap::{Gap, Placed};
use crate::lines::chars;
use core::ops::Range;

/// A char boundary of a text with the number of characters and UTF-16 code units before it. Columns of a long line are counted from the nearest mark,
/// so that its bytes are not read for each column again.
#[derive(Clone, Copy, Debug, Default)]
pub(crate) struct Mark {
    /// Byte offset.
    pub(crate) offset: usize,
    /// Number of characters that begin before the offset.
    pub(crate) chars: usize,
    /// Number of UTF-16 code units of these characters.
    pub(crate) units: usize,
}

impl Mark {
    /// Returns the mark at the end of `bytes`, which begin a text.
    pub(crate) fn of(bytes: &[u8]) -> Mark {
        Mark::default().after(bytes)
    }

    /// Returns the mark at the end of `bytes`, which begin at this mark.
    fn after(self, bytes: &[u8]) -> Mark {
        let len = bytes.len();
        let (begun, pairs) = if bytes.is_ascii() {
            (len, 0)
        } else {
            // Only a character of 4 bytes has 2 code units.
            let is_pair = |byte: &&u8| **byte >= 0xf0;
            (chars(bytes), bytes.iter().filter(is_pair).count())
        };
        Mark {
            offset: self.offset + len,
            chars: self.chars + begun,
            units: self.units + begun + pairs,
        }
    }
}

impl Placed for Mark {
    type Length = Mark;

    fn mirrored(self, length: Mark) -> Mark {
        Mark {
            offset: length.offset - self.offset,
            chars: length.chars - self.chars,
            units: length.units - self.units,
        }
    }
}

/// Distance in bytes at which marks are set. Two neighbors are at most twice as far apart.
pub(crate) const STEP: usize = 1024;

/// The marks of a text that is edited, in a gap buffer whose gap is at the last edit.
#[derive(Clone, Default)]
pub(crate) struct Marks {
    marks: Gap<Mark>,
    /// The mark at the end of the text.
    end: Mark,
}

impl Marks {
    /// Returns the mark at a byte offset, which must be inside the text or at its end. Reads at most `2 * STEP` bytes.
    pub(crate) fn at(&self, text: &str, offset: usize) -> Mark {
        let near = self.last(|mark| mark.offset <= offset);
        near.after(&text.as_bytes()[near.offset..offset])
    }

    /// Returns the last mark that satisfies the predicate, or the start of the text. Those marks must precede all others.
    pub(crate) fn last(&self, passes: impl Fn(Mark) -> bool) -> Mark {
        let count = self.marks.count_first(self.end, passes);
        let last = count.checked_sub(1);
        last.and_then(|last| self.marks.get(last, self.end))
            .unwrap_or_default()
    }

    /// Removes the marks inside a range of the text, which is removed next.
    pub(crate) fn remove(&mut self, text: &str, range: &Range<usize>) {
        let is_before = |mark: Mark| mark.offset <= range.start;
        self.marks.move_to(self.end, is_before);
        self.marks
            .drop_while(self.end, |mark| mark.offset < range.end);
        let removed = Mark::of(&text.as_bytes()[range.clone()]);
        self.end = removed.mirrored(self.end);
    }

    /// Sets marks in a string that was inserted at the gap, and removes marks that are too close to it. `text` is the new text.
    pub(crate) fn insert(&mut self, text: &str, inserted: &str) {
        self.end = self.end.after(inserted.as_bytes());
        let mut last = self.marks.before().last().copied().unwrap_or_default();
        loop {
            let next = self.marks.first_after(self.end);
            match next.unwrap_or(self.end).offset - last.offset {
                ..=STEP if next.is_some() => self.marks.drop_after(),
                distance if distance <= 2 * STEP => return,
                _ => {
                    let step = boundary(text, last.offset + STEP);
                    last = last.after(&text.as_bytes()[last.offset..step]);
                    self.marks.push(last);
                }
            }
        }
    }
}

/// Returns the last char boundary at or before a byte offset of a text.
pub(crate) fn boundary(text: &str, mut offset: usize) -> usize {
    while !text.is_char_boundary(offset) {
        offset -= 1;
    }
    offset
}
