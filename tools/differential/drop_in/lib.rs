//! The crate `wast` over this project's lowest layer: the modules of `wat-parser` replace its own.
#![allow(missing_docs)]

extern crate alloc;

#[macro_use]
mod macros;

pub mod annotation;
mod encode;
mod error;
// Allowed as in `wat-parser`.
#[allow(dead_code, non_camel_case_types)]
#[allow(unused_imports, unused_labels, unused_variables)]
mod generated {
    pub mod wat_floats;
    pub mod wat_lexer_parser;
    pub mod wat_words;
}
mod gensym;
pub mod kw;
pub mod lexer;
mod names;
pub mod parser;
pub mod token;

pub mod core;
mod wast;
mod wat;

#[cfg(feature = "component-model")]
pub mod component;
#[cfg(not(feature = "component-model"))]
#[path = "component_disabled.rs"]
pub mod component;

pub use self::error::*;
pub use self::generated::{wat_floats as floats, wat_lexer_parser as proved, wat_words as words};
pub use self::wast::*;
pub use self::wat::*;
