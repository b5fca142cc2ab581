//! Allocation-failure injection: every failed allocation is an error.
#![cfg(feature = "std")]

#[path = "../../wat-lex/tests/refusing/mod.rs"]
mod refusing;

use refusing::granting;
use std::{fmt, io};
use wat_format::{FormatError, format, format_to, format_to_writer};

type Call<'a> = &'a dyn Fn() -> Result<(), FormatError>;

/// Fails each allocation of a call in turn, up to the call in which none fails, and returns their count.
fn allocations(call: Call<'_>) -> usize {
    let mut count = 0;
    loop {
        let (result, asked) = granting(count, call);
        if asked <= count {
            result.unwrap();
            return count;
        }
        let error = result.unwrap_err();
        assert!(matches!(error, FormatError::OutOfMemory), "{error:?}");
        assert_eq!(error.to_string(), "out of memory");
        assert_eq!(error.span(), None);
        count += 1;
    }
}

/// A sink that allocates nothing.
struct Nothing;

impl fmt::Write for Nothing {
    fn write_str(&mut self, _: &str) -> fmt::Result {
        Ok(())
    }
}

#[test]
fn each_allocation_that_fails_is_an_error() {
    let text = format!("{}a{}", "(".repeat(100), ")".repeat(100));
    let calls: [(&str, Call<'_>); 3] = [
        ("format", &|| format(&text).map(drop)),
        ("format_to", &|| format_to(&text, &mut Nothing)),
        ("format_to_writer", &|| {
            format_to_writer(&text, &mut io::sink())
        }),
    ];
    for (name, call) in calls {
        let count = allocations(call);
        assert!(count >= 2, "{name}: {count} allocations");
    }
}
