//! A verified compiler from the WebAssembly text format to the binary format.
//!
//! ```
//! let bytes = wat_modules::parse_str("(module (func (export \"one\") (result i32) i32.const 1))")?;
//! assert_eq!(bytes[..8], *b"\0asm\x01\0\0\0");
//! assert!(bytes.ends_with(b"\x41\x01\x0b"));
//!
//! let error = wat_modules::parse_str("(module (func\n  frob))").unwrap_err();
//! assert_eq!((error.message().as_str(), error.span().offset()), ("unknown instruction `frob`", 16));
//! assert_eq!(
//!     error.to_string(),
//!     "unknown instruction `frob`\n     --> <anon>:2:3\n      |\n    2 |   frob))\n      |   ^"
//! );
//! # Ok::<(), wat_modules::Error>(())
//! ```
//!
//! [`parse_str`] documents the modules that it accepts. For any other text it returns an error with its location. [`parse_valid_str`] and
//! [`validate`](validate()) also check that the module is valid (WebAssembly 2.0, chapter 3), as does [`Parser::validate`]. [`parse_bytes`] and
//! [`parse_file`] also accept binaries, which they return unchanged, and [`Detect`] tells the two apart.
//!
//! The crate is `no_std` with `alloc`. The feature `std`, which is on by default, adds `parse_file`, the methods of [`Parser`] with a path, and
//! `Error::set_path`.
#![no_std]
#![warn(missing_docs)]
#![forbid(unsafe_code)]

extern crate alloc;
#[cfg(feature = "std")]
extern crate std;

mod detect;
mod error;
// Generated code has labels that only proofs use, parameters and fields that only contracts use, and imports of shim names that a file may not
// use. Clippy's style lints are meant for hand-written code.
#[allow(
    dead_code,
    missing_docs,
    non_camel_case_types,
    unused_imports,
    unused_labels,
    unused_variables
)]
#[allow(clippy::style, clippy::complexity, clippy::pedantic)]
mod generated {
    pub mod wat_module_annotations;
    pub mod wat_module_ast;
    pub mod wat_module_custom;
    pub mod wat_module_encoder;
    pub mod wat_module_instructions;
    pub mod wat_module_lexer;
    pub mod wat_module_parser;
    pub mod wat_module_places;
    pub mod wat_module_tokens;
    pub mod wat_modules;
    pub mod wat_types;
    pub mod wat_valid;
}

use alloc::borrow::Cow;
use alloc::format;
use alloc::vec::Vec;
use core::str;
pub use detect::Detect;
pub use error::Error;
#[doc(hidden)]
pub use generated::{
    wat_module_ast as ast, wat_module_lexer as lexer, wat_module_parser as parser,
    wat_module_places as places, wat_module_tokens as tokens, wat_modules as proved,
    wat_valid as validation,
};
/// The verified compiler of modules that contain only function types, and its contracts. [`wat_lex::proved`] explains how to read a contract.
///
/// `compile_types` returns the bytes of [`parse_str`] wherever both return bytes; it alone compiles two types of one name.
#[doc(inline)]
pub use generated::wat_types as types;
use generated::{
    wat_module_annotations as annotations, wat_module_custom as custom,
    wat_module_encoder as encoder, wat_module_instructions as instructions,
};
#[cfg(feature = "std")]
use std::path::Path;
use wat_lex::shim::alloc::Global;
pub use wat_lex::{LexError, Span};

/// The result of compiling a module.
pub type Result<T, E = Error> = core::result::Result<T, E>;

/// Compiles a module from the text format to the binary format, and returns its bytes.
///
/// The text is `(module $name? field..)`, or `field..` without the enclosing `(module )`. Fields are types, imports, functions, tables, memories,
/// globals, exports, a start function, element segments and data segments, with identifiers and with inline imports, exports, elements and data.
/// Value types and instructions (plain, block and folded) are those of WebAssembly 2.0.
///
/// The underlying compiler is verified. Unless an allocation fails or the module has more than `u32::MAX` bytes, it returns bytes if and only if the
/// text is such a module, and these are the module's bytes. A text matches the grammar of at most one module. The module is not validated: the types
/// of operands are not checked. [`parse_valid_str`] validates it. After the last section is a name section if the module, or one of its functions, types, tables, memories, globals or
/// segments, or a parameter, local or label of a function that it defines, has a name: its identifier, or the string of an annotation
/// `(@name "..")` after it.
///
/// Where a field may be, an annotation `(@custom "name" placement? "data"..)` defines a custom section. Its placement is `(before first)`,
/// `(after last)`, which is the default, or `(before code)`, `(after code)` and so on. All other annotations are skipped.
///
/// # Errors
///
/// Returns one of these errors, with a byte offset:
///
/// - a lexical error, at its offset;
/// - a syntax error at the first token that does not match the grammar; the message has this token and what the grammar accepts there, the index
///   space of an unknown identifier and the nearest identifier in scope, or the range of a number that is out of range;
/// - a duplicate identifier in an index space, or among the parameters and locals of a function, at the second of the two; the message has the
///   location of the first;
/// - an import after a definition, or a second start function, at its keyword; the message has the location of the first definition or start function;
/// - a text or a module of more than `u32::MAX` bytes, at offset 0;
/// - without any other error, an annotation `(@custom` with other contents, or where no field may be;
/// - without any of these, an annotation `(@name` with other contents, or where no identifier may be, or before the identifier.
///
/// `Display` prints the location, and the line of the text unless it is long. If an allocation fails, the error is out of memory.
pub fn parse_str(text: impl AsRef<str>) -> Result<Vec<u8>> {
    Parser::new().compile(text.as_ref())
}

/// Compiles a valid module from the text format to the binary format, and returns its bytes.
///
/// These are the bytes of [`parse_str`], if the module is valid by chapter 3 of the standard, WebAssembly 2.0. Unless an allocation fails or the
/// module has more than `u32::MAX` bytes, the function returns bytes if and only if the text is a module and it is valid.
///
/// ```
/// let error = wat_modules::parse_valid_str("(module (func (result i32)\n  i64.const 1))").unwrap_err();
/// assert_eq!(error.message(), "type mismatch at the end of function 0: expected [i32], found [i64]");
/// # wat_modules::parse_str("(module (func (result i32)\n  i64.const 1))")?;
/// # Ok::<(), wat_modules::Error>(())
/// ```
///
/// # Errors
///
/// Returns the errors of [`parse_str`]. For a module that is not valid, returns an error in the first field that is not valid: at the first such
/// instruction of a function, at the first instruction of an initial value or offset, and otherwise, also at the end of a function, at the keyword of
/// the field. Such an error precedes those of annotations.
pub fn parse_valid_str(text: impl AsRef<str>) -> Result<Vec<u8>> {
    Parser::new().validate(true).compile(text.as_ref())
}

/// Validates a module in the text format.
///
/// Returns `Ok(())` if and only if the text is a module that is valid by chapter 3 of the standard, WebAssembly 2.0, unless an allocation fails or
/// the module has more than `u32::MAX` bytes. Annotations are skipped, whatever they contain.
///
/// ```
/// assert!(wat_modules::validate("(module (func (param i32) (result i32) local.get 0))").is_ok());
/// assert!(wat_modules::validate("(module (func (param i32) (result i64) local.get 0))").is_err());
/// ```
///
/// # Errors
///
/// Returns the errors of [`parse_valid_str`], except those of annotations.
pub fn validate(text: impl AsRef<str>) -> Result<()> {
    let bytes = Parser::new()
        .names(false)
        .validate(true)
        .compile(text.as_ref());
    bytes.map(|_| ())
}

/// Compiles a module from the text format, or returns a binary unchanged.
///
/// Bytes that begin with the magic number `\0asm` are a binary, which is not parsed. Other bytes must be UTF-8, and are compiled like the text of
/// [`parse_str`].
///
/// ```
/// let binary = wat_modules::parse_bytes(b"(module)")?;
/// assert_eq!(*binary, *b"\0asm\x01\0\0\0");
/// assert_eq!(wat_modules::parse_bytes(&binary)?, binary);
/// # Ok::<(), wat_modules::Error>(())
/// ```
///
/// # Errors
///
/// Returns the errors of [`parse_str`], or an error at the offset at which the bytes stop being UTF-8.
pub fn parse_bytes(bytes: &[u8]) -> Result<Cow<'_, [u8]>> {
    Parser::new().compile_bytes(bytes)
}

/// Compiles the module in a file, or returns its binary unchanged, like [`parse_bytes`].
///
/// # Errors
///
/// Returns the errors of [`parse_bytes`], which print the path, or an error if the file cannot be read.
#[cfg(feature = "std")]
pub fn parse_file(path: impl AsRef<Path>) -> Result<Vec<u8>> {
    Parser::new().parse_file(path)
}

/// A compiler of modules with options, whose methods also take the path of the source file.
///
/// ```
/// use wat_modules::Parser;
///
/// let binary = Parser::new().names(false).compile("(module $m)")?;
/// assert_eq!(binary, *b"\0asm\x01\0\0\0");
/// # Ok::<(), wat_modules::Error>(())
/// ```
#[derive(Clone, Debug)]
pub struct Parser {
    names: bool,
    validates: bool,
}

impl Default for Parser {
    fn default() -> Parser {
        Parser::new()
    }
}

impl Parser {
    /// Creates a compiler with the default options.
    #[must_use]
    pub fn new() -> Parser {
        Parser {
            names: true,
            validates: false,
        }
    }

    /// Sets whether the binary has a name section with the identifiers of the text and the custom sections of its annotations, which is the
    /// default. Otherwise annotations `(@name ..)` and `(@custom ..)` are skipped, whatever they contain.
    pub fn names(&mut self, names: bool) -> &mut Parser {
        self.names = names;
        self
    }

    /// Sets whether modules are validated, like those of [`parse_valid_str`]. By default they are not. Binaries are not validated.
    ///
    /// ```
    /// use wat_modules::Parser;
    ///
    /// let text = "(module (func (drop (i32.const 0)) drop))";
    /// assert!(Parser::new().compile(text).is_ok());
    /// assert!(Parser::new().validate(true).compile(text).is_err());
    /// ```
    pub fn validate(&mut self, validates: bool) -> &mut Parser {
        self.validates = validates;
        self
    }

    /// Compiles a module from the text format, like [`parse_str`](parse_str()).
    ///
    /// # Errors
    ///
    /// Returns the errors of [`parse_str`](parse_str()), or those of [`parse_valid_str`] if modules are validated.
    pub fn compile(&self, text: &str) -> Result<Vec<u8>> {
        // `requires` of the functions of `proved`.
        if u32::try_from(text.len()).is_err() {
            let message = format!("the text has more than {} bytes", u32::MAX);
            return Err(wat_lex::Error::new(Span::from_offset(0), message).into());
        }
        compile(text, self.names, self.validates)
    }

    /// Compiles a module from the text format, or returns a binary unchanged.
    fn compile_bytes<'a>(&self, bytes: &'a [u8]) -> Result<Cow<'a, [u8]>> {
        if bytes.starts_with(detect::MAGIC) {
            return Ok(Cow::Borrowed(bytes));
        }
        let text = text_of(bytes)?;
        self.compile(text).map(Cow::Owned)
    }

    /// Compiles a module from the text format, like [`parse_str`](parse_str()). Errors print the path, if it is given.
    ///
    /// ```
    /// use std::path::Path;
    /// use wat_modules::Parser;
    ///
    /// let error = Parser::new().parse_str(Some(Path::new("a.wat")), "(module").unwrap_err();
    /// assert!(error.to_string().contains("--> a.wat:1:8"));
    /// ```
    ///
    /// # Errors
    ///
    /// Returns the errors of [`parse_str`](parse_str()).
    #[cfg(feature = "std")]
    pub fn parse_str(&self, path: Option<&Path>, text: impl AsRef<str>) -> Result<Vec<u8>> {
        let result = self.compile(text.as_ref());
        result.map_err(|error| at_path(error, path))
    }

    /// Compiles a module from the text format, or returns a binary unchanged, like [`parse_bytes`](parse_bytes()). Errors print the path, if it is
    /// given.
    ///
    /// # Errors
    ///
    /// Returns the errors of [`parse_bytes`](parse_bytes()).
    #[cfg(feature = "std")]
    pub fn parse_bytes<'a>(&self, path: Option<&Path>, bytes: &'a [u8]) -> Result<Cow<'a, [u8]>> {
        let result = self.compile_bytes(bytes);
        result.map_err(|error| at_path(error, path))
    }

    /// Compiles the module in a file, or returns its binary unchanged, like [`parse_file`](parse_file()).
    ///
    /// # Errors
    ///
    /// Returns the errors of [`parse_file`](parse_file()).
    #[cfg(feature = "std")]
    pub fn parse_file(&self, path: impl AsRef<Path>) -> Result<Vec<u8>> {
        let path = path.as_ref();
        let contents = std::fs::read(path).map_err(|error| Error::unreadable(path, error))?;
        let module = self.parse_bytes(Some(path), &contents)?;
        Ok(module.into_owned())
    }
}

/// Attaches the path of the source file to an error, if it is given.
#[cfg(feature = "std")]
fn at_path(mut error: Error, path: Option<&Path>) -> Error {
    if let Some(path) = path {
        error.set_path(path);
    }
    error
}

/// Returns bytes as a text, or an error at the offset at which they stop being UTF-8.
fn text_of(bytes: &[u8]) -> Result<&str> {
    str::from_utf8(bytes).map_err(|_| {
        let start = bytes.utf8_chunks().next().map_or("", |chunk| chunk.valid());
        Error::not_utf8(start)
    })
}

/// Compiles a text of at most `u32::MAX` bytes, with or without a name section and custom sections, and with or without validation.
fn compile(text: &str, names: bool, validates: bool) -> Result<Vec<u8>> {
    let compiled = match (names, validates) {
        (true, true) => proved::compile_valid(Global, text),
        (true, false) => proved::compile_with_customs(Global, text),
        (false, true) => proved::compile_valid_without_names(Global, text),
        (false, false) => proved::compile(Global, text),
    };
    let bytes = compiled.map_err(wat_lex::Error::from)?;
    Ok(bytes.into())
}

/// Asserts that a significant token occupies 6 bytes of memory.
const _: () = assert!(size_of::<tokens::stream::PackedToken>() == 6);

/// The README, whose examples are run as doc tests.
#[cfg(doctest)]
#[doc = include_str!("../README.md")]
struct Readme;
