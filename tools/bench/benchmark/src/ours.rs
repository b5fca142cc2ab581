//! The loops of `tools/bench/benchmark/rattle`, with safe wrappers. The program `one` uses only some of them.
#![allow(dead_code)]

use crate::measure::loops;

loops! {
    scan measure_scan,
    scan_whole measure_scan_whole,
    parse measure_parse,
    parse_whole measure_parse_whole,
    iter measure_iter,
    iter_whole measure_iter_whole,
    buffer measure_buffer,
    each measure_each,
    values measure_values,
    comments measure_comments,
    u32s measure_u32s,
    refused measure_refused,
    groups measure_groups,
    kinds measure_kinds,
    lazy_each measure_lazy_each,
    lazy_kinds measure_lazy_kinds,
    lazy_u32s measure_lazy_u32s,
    lazy_groups measure_lazy_groups,
    lazy_refused measure_lazy_refused,
}

unsafe extern "C" {
    fn measure_linecol(text: *const u8, len: usize, offset: usize) -> u64;
    fn measure_error(text: *const u8, len: usize, pos: usize) -> u64;
}

/// Returns the sum for the line and column of the last byte.
pub fn linecol(text: &str) -> u64 {
    // SAFETY: the text is UTF-8, like each `&str`.
    unsafe { measure_linecol(text.as_ptr(), text.len(), text.len() - 1) }
}

/// Returns the sum for the printed error at the last byte.
pub fn error(text: &str) -> u64 {
    let pos = text.len() - 1;
    assert!(text.len() <= u32::MAX as usize && text.is_char_boundary(pos));
    // SAFETY: the text is UTF-8, like each `&str`; its length and the position were checked.
    unsafe { measure_error(text.as_ptr(), text.len(), pos) }
}
