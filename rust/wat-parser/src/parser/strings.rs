use alloc::boxed::Box;
use alloc::vec::Vec;
use core::cell::{Cell, OnceCell};
use core::{slice, str};
use wat_lex::shim;
use wat_lex::shim::alloc::{AllocError, Global};

/// An append-only storage of byte strings. Strings are added through a shared reference, and live as long as the storage.
///
/// A string of up to 63 bytes is in a cell of its length or slightly more. A longer one has a separate allocation.
#[derive(Default)]
pub struct Strings {
    sizes: OnceCell<shim::boxed::Box<Sizes>>,
}

/// Each byte at the index of its value.
static BYTES: [u8; 256] = {
    let mut bytes = [0; 256];
    let mut i = 0;
    while i < 256 {
        bytes[i] = i as u8;
        i += 1;
    }
    bytes
};

/// Returns a static copy of the bytes, if there is one: for a string of at most 1 byte, and for the magic number and the version of a binary module.
fn known(bytes: &[u8]) -> Option<&'static [u8]> {
    match bytes {
        [] => Some(&[]),
        [byte] => Some(slice::from_ref(&BYTES[usize::from(*byte)])),
        b"\0asm" => Some(b"\0asm"),
        b"\x01\0\0\0" => Some(b"\x01\0\0\0"),
        _ => None,
    }
}

/// Defines the cells by their capacity in bytes. Each cell has 1 more byte that records if it is set.
macro_rules! sizes {
    ($($cells:ident $capacity:literal,)*) => {
        #[derive(Default)]
        struct Sizes {
            $($cells: Cells<[u8; $capacity]>,)*
            longer: Cells<Box<[u8]>>,
        }

        impl Sizes {
            /// Stores a copy of the bytes in the smallest cell that has the capacity.
            fn keep(&self, bytes: &[u8]) -> Result<&[u8], AllocError> {
                match bytes.len() {
                    $(..=$capacity => self.$cells.keep_padded(bytes),)*
                    _ => Ok(self.longer.keep(boxed(bytes.iter().copied())?)?),
                }
            }
        }
    };
}

sizes! {
    of_2 2, of_3 3, of_4 4, of_5 5, of_6 6, of_7 7, of_8 8, of_9 9, of_10 10, of_11 11,
    of_15 15, of_19 19, of_23 23, of_31 31, of_39 39, of_47 47, of_63 63,
}

impl Strings {
    /// Stores a copy of the bytes.
    pub fn keep(&self, bytes: &[u8]) -> Result<&[u8], AllocError> {
        if let Some(known) = known(bytes) {
            return Ok(known);
        }
        self.sizes()?.keep(bytes)
    }

    /// Stores a copy of a string.
    pub fn keep_text(&self, text: &str) -> Result<&str, AllocError> {
        Ok(str::from_utf8(self.keep(text.as_bytes())?).expect("a text is UTF-8"))
    }

    /// Returns the cells, which are allocated on first use: most texts have no string to store.
    fn sizes(&self) -> Result<&Sizes, AllocError> {
        if let Some(sizes) = self.sizes.get() {
            return Ok(sizes);
        }
        let sizes = shim::boxed::Box::new(Global, Sizes::default())?;
        Ok(self.sizes.get_or_init(|| sizes))
    }
}

// The cells are dropped in a separate function, so that a buffer without any is dropped inline.
impl Drop for Strings {
    #[inline]
    fn drop(&mut self) {
        if let Some(sizes) = self.sizes.take() {
            drop_sizes(sizes);
        }
    }
}

#[cold]
#[inline(never)]
fn drop_sizes(_: shim::boxed::Box<Sizes>) {}

/// A list of cells in blocks. Each block has a quarter more cells than the one before it, so cells never move, and few are unused at the end.
struct Cells<T> {
    blocks: OnceCell<Box<[Block<T>]>>,
    /// Index of the last block; `set` is the number of its cells that are set.
    last: Cell<usize>,
    set: Cell<usize>,
}

type Block<T> = OnceCell<Box<[OnceCell<T>]>>;

/// Maximum number of blocks. Together they have more cells than the longest text has strings.
const BLOCKS: usize = 80;

/// Number of cells in the first block.
const FIRST: usize = 16;

impl<T> Default for Cells<T> {
    fn default() -> Cells<T> {
        Cells {
            blocks: OnceCell::new(),
            last: Cell::new(0),
            set: Cell::new(0),
        }
    }
}

impl<T> Cells<T> {
    fn keep(&self, item: T) -> Result<&T, AllocError> {
        let set = self.set.get();
        let block = self.blocks.get().and_then(|all| all[self.last.get()].get());
        let cell = match block.and_then(|cells| cells.get(set)) {
            Some(cell) => cell,
            None => self.block_after(block.map(|full| full.len()))?,
        };
        self.set.set(self.set.get() + 1);
        Ok(cell.get_or_init(|| item))
    }

    /// Allocates the next block and returns its first cell. `full` is the number of cells of the block before it.
    #[cold]
    fn block_after(&self, full: Option<usize>) -> Result<&OnceCell<T>, AllocError> {
        if self.blocks.get().is_none() {
            let blocks = boxed((0..BLOCKS).map(|_| OnceCell::new()))?;
            self.blocks.get_or_init(|| blocks);
        }
        let count = full.map_or(FIRST, |full| full + full / 4);
        let last = self.last.get() + usize::from(full.is_some());
        let cells = boxed((0..count).map(|_| OnceCell::new()))?;
        self.last.set(last);
        self.set.set(0);
        let blocks = self.blocks.get().expect("made above");
        Ok(&blocks[last].get_or_init(|| cells)[0])
    }
}

impl<const N: usize> Cells<[u8; N]> {
    fn keep_padded(&self, bytes: &[u8]) -> Result<&[u8], AllocError> {
        let mut padded = [0; N];
        padded[..bytes.len()].copy_from_slice(bytes);
        Ok(&self.keep(padded)?[..bytes.len()])
    }
}

fn boxed<T>(items: impl ExactSizeIterator<Item = T>) -> Result<Box<[T]>, AllocError> {
    let mut exact = Vec::new();
    let reserved = exact.try_reserve_exact(items.len());
    reserved.map_err(|_| AllocError)?;
    exact.extend(items);
    Ok(exact.into_boxed_slice())
}
