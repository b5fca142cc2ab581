use core::str;
use wat_lex::{Lexer, TokenKind};

/// The magic number, with which each binary begins.
pub(crate) const MAGIC: &[u8] = b"\0asm";

/// The kind of contents that bytes appear to be, by their beginning.
///
/// ```
/// use wat_modules::Detect;
///
/// assert_eq!(Detect::from_bytes("(; empty ;) (module)"), Detect::WasmText);
/// assert_eq!(Detect::from_bytes(b"\0asm\x01\0\0\0"), Detect::WasmBinary);
/// assert!(!Detect::from_bytes("module").is_wasm());
/// ```
#[derive(Clone, Copy, Debug, PartialEq, Eq)]
pub enum Detect {
    /// UTF-8 whose first token after whitespace and comments is `(`.
    WasmText,
    /// Bytes that begin with the magic number `\0asm`.
    WasmBinary,
    /// Other bytes.
    Unknown,
}

impl Detect {
    /// Returns the kind of contents that the bytes appear to be. They need not be a module: neither text nor binary is parsed.
    #[must_use]
    pub fn from_bytes(bytes: impl AsRef<[u8]>) -> Detect {
        let bytes = bytes.as_ref();
        if bytes.starts_with(MAGIC) {
            return Detect::WasmBinary;
        }
        match str::from_utf8(bytes) {
            Ok(text) if begins_with_parenthesis(text) => Detect::WasmText,
            _ => Detect::Unknown,
        }
    }

    /// Returns `true` for a text and for a binary.
    #[must_use]
    pub fn is_wasm(&self) -> bool {
        match self {
            Detect::WasmText | Detect::WasmBinary => true,
            Detect::Unknown => false,
        }
    }
}

/// Returns `true` if the first token after whitespace and comments is `(`. As in [`parse_str`](crate::parse_str), comments may contain any character.
fn begins_with_parenthesis(text: &str) -> bool {
    let mut lexer = Lexer::new(text);
    lexer.allow_confusing_unicode(true);
    let mut kinds = lexer.iter(0).map_while(|token| Some(token.ok()?.kind));
    kinds.find(|kind| !kind.is_blank()) == Some(TokenKind::LParen)
}
