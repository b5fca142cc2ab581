//! Macros that allocate with an explicit allocator.

#[macro_export]
#[doc(hidden)]
/// Formats a string, as `format!(in alloc; ..)` in Rattle.
macro_rules! try_format {
    ($alloc:expr; $($rest:tt)*) => {{
        let mut text = $crate::shim::string::String::new($alloc);
        match text.write_fmt(format_args!($($rest)*)) {
            Ok(()) => Ok(text),
            Err(refused) => Err(refused),
        }
    }};
}

#[macro_export]
#[doc(hidden)]
/// Creates a vector of `count` copies of an item, as `vec![in alloc; item; count]` in Rattle.
macro_rules! try_vec {
    [$alloc:expr; $item:expr; $count:expr] => {
        $crate::shim::vec::Vec::from_elem($alloc, $item, $count)
    };
}

pub use {try_format, try_vec};
