//! Widths of strings in terminal columns.
use crate::shim::alloc::Global;
use crate::shim::string::String;
pub use unicode_width::{UnicodeWidthChar, UnicodeWidthStr};

/// Size in bytes of the buffer on the stack.
const ROOM: usize = 1024;

/// Returns the width in terminal columns of a sequence of characters.
///
/// The crate `unicode_width` accepts only strings, so the characters are copied into one, a chunk at a time. A chunk that is longer than the buffer
/// is moved to the heap. If that allocation fails, its parts are measured separately, and a sequence across their border counts as two.
pub fn char_iter_width(chars: impl Iterator<Item = char>) -> usize {
    let mut stretch = Stretch::new();
    let mut width = 0usize;
    for c in chars {
        if begins_stretch(c) {
            width = width.wrapping_add(stretch.take_width());
        }
        width = width.wrapping_add(stretch.push(c));
    }
    width.wrapping_add(stretch.take_width())
}

/// Returns `true` if the character never combines with the one before it. Digits may: a digit can begin an emoji.
fn begins_stretch(c: char) -> bool {
    matches!(c, ' ' | 'A'..='Z' | 'a'..='z')
}

/// A chunk of characters: `long` has those that were moved to the heap, followed by those in the buffer.
struct Stretch {
    long: String,
    room: [u8; ROOM],
    len: usize,
}

impl Stretch {
    fn new() -> Stretch {
        Stretch {
            long: String::new(Global),
            room: [0; ROOM],
            len: 0,
        }
    }

    fn in_room(&self) -> &str {
        core::str::from_utf8(&self.room[..self.len]).unwrap_or_default()
    }

    /// Appends a character, and returns the width of any characters that had to be measured first.
    fn push(&mut self, c: char) -> usize {
        let mut measured = 0;
        if ROOM - self.len < c.len_utf8() {
            measured = self.ensure_capacity();
        }
        self.len += c.encode_utf8(&mut self.room[self.len..]).len();
        measured
    }

    /// Moves the buffer to the heap. If the allocation fails, measures the chunk instead and returns its width.
    fn ensure_capacity(&mut self) -> usize {
        let mut long = core::mem::replace(&mut self.long, String::new(Global));
        if long.push_str(self.in_room()).is_err() {
            self.long = long;
            return self.take_width();
        }
        self.long = long;
        self.len = 0;
        0
    }

    /// Returns the width of the chunk and clears it.
    fn take_width(&mut self) -> usize {
        let mut long = core::mem::replace(&mut self.long, String::new(Global));
        let in_room = self.in_room();
        let width = if long.is_empty() {
            in_room.width()
        } else if long.push_str(in_room).is_ok() {
            long.width()
        } else {
            long.width().wrapping_add(in_room.width())
        };
        self.len = 0;
        width
    }
}
