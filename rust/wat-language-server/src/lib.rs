//! A language server for WebAssembly text: [`serve`] responds to messages of the Language Server Protocol.
//!
//! A text with errors is analyzed too: [`syntax`] finds its groups, [`fields`] the fields and index spaces of its modules, and [`analysis`] the
//! definition of each identifier and index.
#![warn(missing_docs)]
#![forbid(unsafe_code)]

#[doc(hidden)]
pub mod analysis;
mod completion;
mod definitions;
mod diagnostics;
mod document;
#[doc(hidden)]
pub mod fields;
mod hover;
#[doc(hidden)]
pub mod index_spaces;
mod messages;
mod operands;
mod scopes;
mod semantic_tokens;
mod server;
mod symbols;
#[doc(hidden)]
pub mod syntax;
mod walker;

pub use diagnostics::{LONGEST_ANALYZED, MOST_DIAGNOSTICS};
pub use server::serve;
