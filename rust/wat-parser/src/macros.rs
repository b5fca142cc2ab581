// The name of a user's type may be that of any variable, so the names of parameters begin with underscores.

/// Defines a token type, for the three macros below. The arguments are the type's name and derived traits, the lexeme or name, the method of a cursor
/// that consumes it with its error message, and the method that peeks at it with its display name.
#[doc(hidden)]
#[macro_export]
macro_rules! __token_type {
    ($name:ident [$($derived:ident),*] $word:expr, $take:ident $expected:expr, $see:ident $display:expr) => {
        #[allow(non_camel_case_types, missing_docs)]
        #[derive($($derived),*)]
        pub struct $name(#[allow(dead_code)] pub $crate::token::Span);

        impl<'a> $crate::parser::Parse<'a> for $name {
            fn parse(__parser: $crate::parser::Parser<'a>) -> $crate::parser::Result<Self> {
                __parser
                    .this_token($word, $expected, $crate::parser::Cursor::$take)
                    .map($name)
            }
        }

        impl $crate::parser::Peek for $name {
            fn peek(__cursor: $crate::parser::Cursor<'_>) -> $crate::parser::Result<bool> {
                __cursor.$see($word)
            }

            fn display() -> &'static str {
                $display
            }
        }
    };
}

/// Defines the type of a keyword: `custom_keyword!(name)`, or `custom_keyword!(name = "the-word")` if the keyword is not a Rust identifier.
///
/// The type implements [`Parse`](crate::parser::Parse) and [`Peek`](crate::parser::Peek), and its field is the keyword's offset. A lexeme that does
/// not begin with `a` to `z`, or that is a number, is never recognized, since the lexer does not classify it as a keyword.
#[macro_export]
macro_rules! custom_keyword {
    ($name:ident) => {
        $crate::custom_keyword!($name = stringify!($name));
    };
    ($name:ident = $word:expr) => {
        $crate::__token_type!(
            $name [Clone, Copy, Debug] $word,
            keyword concat!("expected keyword `", $word, "`"),
            is_keyword concat!("`", $word, "`")
        );
    };
}

/// Defines the type of a reserved token, such as `<=>`: `custom_reserved!(spaceship = "<=>")`.
///
/// The type implements [`Parse`](crate::parser::Parse) and [`Peek`](crate::parser::Peek), and its field is the token's offset.
#[macro_export]
macro_rules! custom_reserved {
    ($name:ident) => {
        $crate::custom_reserved!($name = stringify!($name));
    };
    ($name:ident = $word:expr) => {
        $crate::__token_type!(
            $name [Debug] $word,
            reserved concat!("expected reserved symbol `", $word, "`"),
            is_reserved concat!("`", $word, "`")
        );
    };
}

/// Defines the type of an annotation: `annotation!(producer)`, or `annotation!(name = "the.name")` if the name is not a Rust identifier.
///
/// The type implements [`Parse`](crate::parser::Parse) and [`Peek`](crate::parser::Peek) for the token `@name` only, and its field is the token's
/// offset. The group `(@name ..)` is visible only while the name is registered by
/// [`register_annotation`](crate::parser::Parser::register_annotation), which must be called before the group's `(` is parsed.
#[macro_export]
macro_rules! annotation {
    ($name:ident) => {
        $crate::annotation!($name = stringify!($name));
    };
    ($name:ident = $word:expr) => {
        $crate::__token_type!(
            $name [Debug] $word,
            annotation concat!("expected annotation `@", $word, "`"),
            is_annotation concat!("`@", $word, "`")
        );
    };
}
