//! Debug output of values.

use std::fmt::Debug;

/// Formats a value, with `_` as the type argument of a `PhantomData`.
pub fn printed<T: Debug>(value: &T) -> String {
    let value = format!("{value:?}");
    let of_type = value.split_once("PhantomData<");
    let named = of_type.and_then(|(before, rest)| Some((before, rest.rsplit_once('>')?.1)));
    match named {
        Some((before, after)) => format!("{before}PhantomData<_>{after}"),
        None => value,
    }
}
