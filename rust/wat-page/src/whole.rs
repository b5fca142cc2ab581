//! Functions over a whole text that allocate: [`wat_page_lay_out`] formats it, [`wat_page_compile`] compiles a module, validated or not, and
//! [`wat_page_types`] a module of function types. The formatter and the compilers are verified; this file is tested.
//!
//! The caller writes the text into the buffer that [`wat_page_room`] returns. If one of the functions then returns `true`, its result is at
//! [`wat_page_answer`]. Buffer and result are valid until the next call of [`wat_page_room`]; a result is also replaced by the next one. Such an
//! instance must not call [`wat_page_read`], since JavaScript arranges all of the memory for that function. An instance that trapped, because memory
//! ran out for an error's message, must not be used again.
//!
//! [`wat_page_read`]: crate::page::wat_page_read

use std::sync::{Mutex, PoisonError};
use wat_format::Options;
use wat_lex::shim::alloc::Global;
use wat_modules::types::compile_types;
use wat_modules::{Error, Parser};

/// The text, the result of the last function over it, and the location of the last error of [`wat_page_compile`].
struct Whole {
    text: Vec<u8>,
    answer: Vec<u8>,
    rejected: Rejected,
}

/// The location of an error of the compiler in the text, and the length of its message, both in bytes.
struct Rejected {
    offset: usize,
    message_len: usize,
}

static WHOLE: Mutex<Whole> = Mutex::new(Whole {
    text: Vec::new(),
    answer: Vec::new(),
    rejected: Rejected {
        offset: 0,
        message_len: 0,
    },
});

fn with_whole<T>(use_it: impl FnOnce(&mut Whole) -> T) -> T {
    use_it(&mut WHOLE.lock().unwrap_or_else(PoisonError::into_inner))
}

/// Calls a function with the text and stores its result, which is empty if there is none. Returns `true` if there is a result. A text that is not
/// UTF-8 has none.
fn keep(answer_to: impl FnOnce(&str) -> Option<Vec<u8>>) -> bool {
    with_whole(|whole| {
        let answer = str::from_utf8(&whole.text).ok().and_then(answer_to);
        let is_answered = answer.is_some();
        whole.answer = answer.unwrap_or_default();
        is_answered
    })
}

/// Copies bytes. Returns `None` if the allocation fails.
fn copied(bytes: &[u8]) -> Option<Vec<u8>> {
    let mut copy = Vec::new();
    copy.try_reserve_exact(bytes.len()).ok()?;
    copy.extend_from_slice(bytes);
    Some(copy)
}

/// Returns a buffer of zeros for a text of `len` bytes, or null if the allocation fails. Frees the previous buffer and result.
#[unsafe(no_mangle)]
pub extern "C" fn wat_page_room(len: usize) -> *mut u8 {
    #[cfg(target_family = "wasm")]
    crate::memory::grant();
    with_whole(|whole| {
        (whole.text, whole.answer) = (Vec::new(), Vec::new());
        if whole.text.try_reserve_exact(len).is_err() {
            return std::ptr::null_mut();
        }
        whole.text.resize(len, 0);
        whole.text.as_mut_ptr()
    })
}

/// Formats the text in the buffer. Returns `true` if the result is the formatted text, and `false` if the text is not UTF-8, has a lexical error, is
/// too long, or if an allocation fails.
#[unsafe(no_mangle)]
pub extern "C" fn wat_page_lay_out(allow: bool, strict: bool) -> bool {
    let options = Options::new()
        .allow_confusing_unicode(allow)
        .strict_underscores(strict);
    keep(|text| Some(options.format(text).ok()?.into_bytes()))
}

/// Compiles the module of function types in the buffer. Returns `true` if the result is the module's bytes, and `false` if the text is not such a
/// module or if an allocation fails.
#[unsafe(no_mangle)]
pub extern "C" fn wat_page_types() -> bool {
    keep(|text| copied(compile_types(Global, text).ok()?.as_slice()))
}

/// Compiles the module in the buffer, which must be valid if `validates` is `true`. Returns `true` if the result is the module's bytes, and `false` if
/// the text is not such a module or if an allocation fails. If the text is UTF-8 and not such a module, the result is the error with its excerpt, which
/// begins with its message; [`wat_page_error_offset`] and [`wat_page_message_len`] return its offset and the length of its message. Otherwise the
/// result is empty.
#[unsafe(no_mangle)]
pub extern "C" fn wat_page_compile(validates: bool) -> bool {
    let mut parser = Parser::new();
    parser.validate(validates);
    let mut error = None;
    let is_compiled = keep(|text| {
        let compiled = parser.compile(text);
        compiled.map_err(|it| error = Some(it)).ok()
    });
    if let Some(error) = error.filter(|it| !it.is_out_of_memory()) {
        reject(&error);
    }
    is_compiled
}

/// Stores an error of the compiler as the result.
fn reject(error: &Error) {
    with_whole(|whole| {
        whole.answer = error.to_string().into_bytes();
        whole.rejected = Rejected {
            offset: error.span().offset(),
            message_len: error.message().len(),
        };
    });
}

/// Returns the byte offset of the last error of [`wat_page_compile`].
#[unsafe(no_mangle)]
pub extern "C" fn wat_page_error_offset() -> usize {
    with_whole(|whole| whole.rejected.offset)
}

/// Returns the length in bytes of the message with which the result of [`wat_page_compile`] begins, if that is an error.
#[unsafe(no_mangle)]
pub extern "C" fn wat_page_message_len() -> usize {
    with_whole(|whole| whole.rejected.message_len)
}

/// Returns a pointer to the result of the last function over the text.
#[unsafe(no_mangle)]
pub extern "C" fn wat_page_answer() -> *const u8 {
    with_whole(|whole| whole.answer.as_ptr())
}

/// Returns the length in bytes of the result of the last function over the text.
#[unsafe(no_mangle)]
pub extern "C" fn wat_page_answer_len() -> usize {
    with_whole(|whole| whole.answer.len())
}
