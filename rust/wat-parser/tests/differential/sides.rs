//! The layer and the verified code under the same names. The calls of their parsers are written once, in `calls!`, and compiled for each of them.

use crate::calls::Call;
use std::cell::RefCell;
use wat_parser::shim::alloc::Global;
use wat_parser::shim::borrow::{CowSlice, CowStr};
use wat_parser::{Error, shim};

/// Number of types that are parsed.
pub const READINGS: usize = 47;

/// Number of types that are peeked at.
pub const PEEKS: usize = 29;

thread_local! {
    /// The calls that the next `Play` runs.
    pub static CALLS: RefCell<Vec<Call>> = const { RefCell::new(Vec::new()) };
    /// The results of the calls.
    pub static SAID: RefCell<Vec<String>> = const { RefCell::new(Vec::new()) };
    /// The text of the buffer, for the readings of floats.
    pub static TEXT: RefCell<String> = const { RefCell::new(String::new()) };
}

fn say(result: String) {
    SAID.with_borrow_mut(|said| said.push(result));
}

/// A value with a description that is the same on both sides.
pub trait Told {
    fn told(&self) -> String;
}

/// Describes types by their `Debug` output.
macro_rules! told_by_debug {
    ($($type:ty,)*) => {
        $(
            impl Told for $type {
                fn told(&self) -> String {
                    format!("{self:?}")
                }
            }
        )*
    };
}

told_by_debug! {
    (), bool, u8, u16, u32, u64, i8, i16, i32, i64, String, &str, &[u8], CowStr<'_>, CowSlice<'_, u8>,
    (u8, layer::Span), (u16, layer::Span), (u32, layer::Span), (u64, layer::Span),
    (i8, layer::Span), (i16, layer::Span), (i32, layer::Span), (i64, layer::Span),
    layer::Id<'_>, layer::Index<'_>, layer::NameAnnotation<'_>, layer::F32, layer::F64,
    proved::Id<'_>, proved::Index<'_>, proved::NameAnnotation<'_>,
}

impl Told for shim::string::String {
    fn told(&self) -> String {
        format!("{:?}", self.as_str())
    }
}

impl<T: Told> Told for Option<T> {
    fn told(&self) -> String {
        self.as_ref()
            .map_or("none".to_owned(), |value| format!("some {}", value.told()))
    }
}

impl<T: Told> Told for Box<T> {
    fn told(&self) -> String {
        (**self).told()
    }
}

impl<T: Told> Told for shim::boxed::Box<T> {
    fn told(&self) -> String {
        (**self).told()
    }
}

/// An error, which is described by all that it has.
pub trait Refusal {
    fn refusal(&self) -> String;
}

impl Refusal for Error {
    fn refusal(&self) -> String {
        let (message, span) = (self.message(), self.span());
        format!("error {span:?} {:?} {message} {self}", self.lex_error())
    }
}

impl Refusal for wat_parser::proved::Error {
    fn refusal(&self) -> String {
        let (message, span) = (self.message(Global).unwrap(), self.span());
        format!("error {span:?} {:?} {message} {self}", self.lex_error())
    }
}

pub fn told<T: Told, E: Refusal>(result: Result<T, E>) -> String {
    match result {
        Ok(value) => value.told(),
        Err(error) => error.refusal(),
    }
}

/// Returns the cursor after a consumed token.
fn next<V, C>(taken: Option<(V, C)>) -> Option<C> {
    taken.map(|(_, next)| next)
}

/// A type that is parsed as a whole text, and by a parser.
macro_rules! readings {
    ($($type:ty),*) => {
        pub struct Reading {
            pub whole: for<'b> fn(&'b ParseBuffer<'b>) -> String,
            pub part: fn(Playing<'_, '_>) -> String,
        }

        pub const READINGS: [Reading; crate::sides::READINGS] = [$(
            Reading {
                whole: |buffer| told(parse::<$type>(buffer)),
                part: |parser| told(parser.parse::<$type>()),
            }
        ),*];
    };
}

/// A type that is peeked at: at each of the next 3 tokens, and by a lookahead.
macro_rules! peeks {
    ($($type:ty),*) => {
        pub struct Peeks {
            three: fn(Playing<'_, '_>) -> String,
            ahead: fn(&mut Looking<'_, '_>) -> String,
            display: fn() -> &'static str,
        }

        const PEEKS: [Peeks; crate::sides::PEEKS] = [$(
            Peeks {
                three: |parser| {
                    let first = told(parser.peek::<$type>());
                    let second = told(parser.peek2::<$type>());
                    format!("{first} {second} {}", told(parser.peek3::<$type>()))
                },
                ahead: |look| told(look.peek::<$type>()),
                display: <$type as Peek>::display,
            }
        ),*];
    };
}

/// The calls of a parser, with the types and functions that are in scope.
macro_rules! calls {
    () => {
        readings! {
            u8, u16, u32, u64, i8, i16, i32, i64, (u8, Span), (u16, Span), (u32, Span), (u64, Span), (i8, Span), (i16, Span), (i32, Span),
            (i64, Span), F32, F64, Id, Index, Bytes, Text, Owned, Boxed<u32>, Boxed<Option<Id>>, NameAnnotation, Named, ItemRef<func>,
            Option<u8>, Option<Id>, Option<Index>, Option<Bytes>, Option<Text>, Option<ItemRef<func>>, Option<func>, Option<comma>,
            Option<annotated>, func, context_get, trunc_f32, comma, arrow, spaceship, annotated, doubly, name, Option<name>
        }

        peeks! {
            u8, u16, u32, u64, i8, i16, i32, i64, Id, Index, Bytes, Text, ItemRef<func>, ItemRef<Id>, LParen, RParen, func, module, context_get,
            context_set, trunc_f32, trunc_f64, comma, arrow, spaceship, annotated, doubly, name, custom
        }

        /// A value that is parsed by running `CALLS`.
        pub struct Play;

        impl<'a> Parse<'a> for Play {
            fn parse(parser: Playing<'_, 'a>) -> Result<Self> {
                let calls = CALLS.take();
                play(parser, &calls);
                Ok(Play)
            }
        }

        /// Runs calls from the start of a buffer, and returns their results and that of the whole parse.
        pub fn answers<'b>(buffer: &'b ParseBuffer<'b>, calls: &[Call]) -> Vec<String> {
            CALLS.set(calls.to_vec());
            let end = told(parse::<Play>(buffer).map(|_| ()));
            say(end);
            SAID.take()
        }

        /// Returns the display name of each type that is peeked at.
        pub fn displays() -> Vec<&'static str> {
            PEEKS.iter().map(|peeks| (peeks.display)()).collect()
        }

        fn play(parser: Playing<'_, '_>, calls: &[Call]) {
            for call in calls {
                answer(parser, call);
                let at = (parser.cur_span(), parser.prev_span());
                say(format!("{at:?} {} {}", parser.parens_depth(), parser.is_empty()));
            }
        }

        fn answer(parser: Playing<'_, '_>, call: &Call) {
            match call {
                Call::Look => say(looks(parser)),
                Call::Parse(number) => say((READINGS[*number].part)(parser)),
                Call::Lookahead(peeks) => say(lookahead(parser, peeks)),
                Call::Step(moves, fails) => {
                    let walked = parser.step(|cursor| walk(cursor, moves, *fails));
                    say(told(walked));
                }
                Call::Group(inside, fails) => {
                    let parsed = parser.parens(|group| grouped(group, inside, *fails));
                    say(told(parsed));
                }
                Call::Under(shown, inside) => under(parser, shown, inside),
                Call::Standard(inside) => say(told(standard(parser, inside))),
                Call::Rest => say(told(rest(parser))),
                Call::Next => say(told(parser.step(|cursor| past_any(cursor)))),
            }
        }

        /// Makes all calls that do not change the parser.
        fn looks(parser: Playing<'_, '_>) -> String {
            let facts = (
                parser.has_meaningful_tokens(),
                parser.track_instr_spans(),
                told(parser.depth_check()),
                parser.error("here").refusal(),
                parser.error_at(parser.prev_span(), "there").refusal(),
            );
            let peeks: Vec<String> = PEEKS.iter().map(|peeks| (peeks.three)(parser)).collect();
            format!("{facts:?} {peeks:?}")
        }

        fn lookahead(parser: Playing<'_, '_>, peeks: &[usize]) -> String {
            let mut look = parser.lookahead1();
            let seen: Vec<String> = peeks
                .iter()
                .map(|number| (PEEKS[*number].ahead)(&mut look))
                .collect();
            let at = look.parser().cur_span();
            format!("{seen:?} {at:?} {}", look.error().refusal())
        }

        fn grouped(group: Playing<'_, '_>, inside: &[Call], fails: bool) -> Result<()> {
            play(group, inside);
            if fails {
                return Err(group.error("no such group"));
            }
            Ok(())
        }

        fn rest(parser: Playing<'_, '_>) -> Result<()> {
            while !parser.is_empty() {
                if parser.peek::<LParen>()? {
                    parser.parens(rest)?;
                } else {
                    parser.step(|cursor| past_any(cursor))?;
                }
            }
            Ok(())
        }

        fn past_any<'p, 'a>(cursor: Walking<'p, 'a>) -> Result<((), Walking<'p, 'a>)> {
            match moved(cursor, ANY)? {
                Some(next) => Ok(((), next)),
                None => Err(cursor.error("no token")),
            }
        }

        fn walk<'p, 'a>(
            cursor: Walking<'p, 'a>,
            moves: &[usize],
            fails: bool,
        ) -> Result<((), Walking<'p, 'a>)> {
            let mut cursor = cursor;
            for number in moves {
                say(seen(cursor));
                if let Some(next) = moved(cursor, *number)? {
                    cursor = next;
                }
            }
            say(seen(cursor));
            if fails {
                return Err(cursor.error("no further"));
            }
            Ok(((), cursor))
        }

        /// Makes all calls of a cursor.
        fn seen(cursor: Walking<'_, '_>) -> String {
            let peeks = [
                cursor.peek_lparen(),
                cursor.peek_rparen(),
                cursor.peek_id(),
                cursor.peek_reserved(),
                cursor.peek_keyword(),
                cursor.peek_integer(),
                cursor.peek_float(),
                cursor.peek_string(),
            ];
            let error = cursor.error("at").refusal();
            format!("{:?} {} {:?}", peeks.map(told), error, values(cursor))
        }

        fn values(cursor: Walking<'_, '_>) -> [String; 10] {
            let open = cursor.lparen().map(|next| next.map(|next| ("(", next)));
            let close = cursor.rparen().map(|next| next.map(|next| (")", next)));
            [
                taken(open),
                taken(close),
                taken(cursor.id()),
                taken(cursor.keyword()),
                taken(cursor.annotation()),
                taken(cursor.reserved()),
                taken(cursor.integer()),
                taken(cursor.float()),
                taken(cursor.string()),
                taken(cursor.comment()),
            ]
        }

        fn taken<V: Debug>(taken: Result<Option<(V, Walking<'_, '_>)>>) -> String {
            let told_with = |(value, next): (V, Walking<'_, '_>)| {
                format!("{value:?}, then {:?}", next.cur_span())
            };
            told(taken.map(|taken| taken.map(told_with)))
        }

        fn moved<'p, 'a>(cursor: Walking<'p, 'a>, number: usize) -> Result<Option<Walking<'p, 'a>>> {
            Ok(match number {
                0 => cursor.lparen()?,
                1 => cursor.rparen()?,
                2 => next(cursor.id()?),
                3 => next(cursor.keyword()?),
                4 => next(cursor.annotation()?),
                5 => next(cursor.reserved()?),
                6 => next(cursor.integer()?),
                7 => next(cursor.float()?),
                8 => next(cursor.string()?),
                9 => next(cursor.comment()?),
                _ => {
                    for kind in 0..9 {
                        if let Some(next) = moved(cursor, kind)? {
                            return Ok(Some(next));
                        }
                    }
                    None
                }
            })
        }
    };
}

/// The layer.
#[allow(non_camel_case_types)]
pub mod layer {
    use super::{CALLS, Refusal, SAID, Told, next, say, told};
    use crate::calls::{ANY, Call};
    use std::fmt::Debug;
    pub use wat_parser::annotation::{custom, name};
    pub use wat_parser::kw::{context_get, context_set, func, module};
    pub use wat_parser::parser::{Cursor, Lookahead1, Parse, ParseBuffer, Parser, Peek, Result, parse};
    pub use wat_parser::token::{F32, F64, Id, Index, ItemRef, LParen, NameAnnotation, RParen, Span};

    wat_parser::custom_keyword!(trunc_f32 = "i32.trunc_f32_s");
    wat_parser::custom_keyword!(trunc_f64 = "i32.trunc_f64_s");
    wat_parser::custom_reserved!(comma = ",");
    wat_parser::custom_reserved!(arrow = "=>");
    wat_parser::custom_reserved!(spaceship = "<=>");
    wat_parser::annotation!(annotated = "a");
    wat_parser::annotation!(doubly = "aa");

    type Playing<'p, 'a> = Parser<'a>;
    type Walking<'p, 'a> = Cursor<'a>;
    type Looking<'p, 'a> = Lookahead1<'a>;
    type Bytes<'a> = &'a [u8];
    type Text<'a> = &'a str;
    type Owned = String;
    type Boxed<T> = Box<T>;
    type Named<'a> = Option<NameAnnotation<'a>>;

    /// Describes words by their offsets.
    macro_rules! told_by_offset {
        ($($word:ident)*) => {
            $(
                impl Told for $word {
                    fn told(&self) -> String {
                        format!("{:?}", self.0)
                    }
                }
            )*
        };
    }

    told_by_offset! { func context_get trunc_f32 comma arrow spaceship annotated doubly name }

    impl<K: Told> Told for ItemRef<'_, K> {
        fn told(&self) -> String {
            format!("{} {:?}", self.kind.told(), self.idx)
        }
    }

    fn under(parser: Parser<'_>, shown: &str, inside: &[Call]) {
        let registered = parser.register_annotation(shown);
        play(parser, inside);
        drop(registered);
    }

    fn standard(parser: Parser<'_>, inside: &[Call]) -> Result<()> {
        parser.with_standard_annotations_registered(|parser| {
            play(parser, inside);
            Ok(())
        })
    }

    calls! {}
}

/// The verified code.
#[allow(non_camel_case_types)]
pub mod proved {
    use super::{CALLS, Refusal, SAID, TEXT, Told, next, say, told};
    use crate::calls::{ANY, Call};
    use std::fmt::Debug;
    use wat_parser::floats::{f32_bits, f64_bits};
    use wat_parser::proved::lexer::TokenKind;
    pub use wat_parser::proved::parser::{
        Cursor, Lookahead1, Parse, ParseBuffer, Parser, Peek, Result, parse,
    };
    use wat_parser::proved::token::{AnnotationWord, Keyword, ReservedSymbol, Word};
    pub use wat_parser::proved::token::{Id, Index, ItemRef, LParen, NameAnnotation, RParen, Span};
    use wat_parser::proved::{annotation, kw};
    use wat_parser::shim::alloc::{AllocError, Global};
    use wat_parser::shim::borrow::{CowSlice, CowStr};

    type Playing<'p, 'a> = &'p mut Parser<'a>;
    type Walking<'p, 'a> = Cursor<'p, 'a>;
    type Looking<'p, 'a> = Lookahead1<'p, 'a>;
    type Bytes<'a> = CowSlice<'a, u8>;
    type Text<'a> = CowStr<'a>;
    type Owned = wat_parser::shim::string::String;
    type Boxed<T> = wat_parser::shim::boxed::Box<T>;
    type func = kw::func;
    type module = kw::module;
    type context_get = kw::context_get;
    type context_set = kw::context_set;
    type name = annotation::name;
    type custom = annotation::custom;

    /// Defines a word.
    macro_rules! word {
        ($name:ident = $kind:ident $word:ident $at:literal $text:literal $display:literal) => {
            pub struct $word;

            impl Word for $word {
                const AT: bool = $at;

                fn word() -> &'static str {
                    $text
                }

                fn display() -> &'static str {
                    $display
                }
            }

            type $name = $kind<$word>;
        };
    }

    word!(trunc_f32 = Keyword TruncF32 false "i32.trunc_f32_s" "`i32.trunc_f32_s`");
    word!(trunc_f64 = Keyword TruncF64 false "i32.trunc_f64_s" "`i32.trunc_f64_s`");
    word!(comma = ReservedSymbol Comma false "," "`,`");
    word!(arrow = ReservedSymbol Arrow false "=>" "`=>`");
    word!(spaceship = ReservedSymbol Spaceship false "<=>" "`<=>`");
    word!(annotated = AnnotationWord Annotated true "a" "`@a`");
    word!(doubly = AnnotationWord Doubly true "aa" "`@aa`");

    impl<N: Word> Told for Keyword<N> {
        fn told(&self) -> String {
            format!("{:?}", self.span)
        }
    }

    impl<N: Word> Told for ReservedSymbol<N> {
        fn told(&self) -> String {
            format!("{:?}", self.span)
        }
    }

    impl<N: Word> Told for AnnotationWord<N> {
        fn told(&self) -> String {
            format!("{:?}", self.span)
        }
    }

    impl<K: Told> Told for ItemRef<'_, K> {
        fn told(&self) -> String {
            format!("{} {:?}", self.kind.told(), self.idx)
        }
    }

    /// The name of an optional annotation.
    struct Named<'a>(Option<NameAnnotation<'a>>);

    impl<'a> Parse<'a> for Named<'a> {
        fn parse(parser: &mut Parser<'a>) -> Result<Self> {
            NameAnnotation::parse_option(parser).map(Named)
        }
    }

    impl Told for Named<'_> {
        fn told(&self) -> String {
            self.0.told()
        }
    }

    /// Defines a floating-point type, which the verified parser does not have, over the verified conversion of its literals.
    macro_rules! float {
        ($name:ident $bits:ident $read:ident) => {
            #[derive(Debug)]
            #[allow(dead_code)]
            pub struct $name {
                bits: $bits,
            }

            impl<'a> Parse<'a> for $name {
                fn parse(parser: &mut Parser<'a>) -> Result<Self> {
                    let bits = number(parser, $read)?;
                    Ok($name { bits })
                }
            }

            impl Told for $name {
                fn told(&self) -> String {
                    format!("{self:?}")
                }
            }
        };
    }

    float!(F32 u32 f32_bits);
    float!(F64 u64 f64_bits);

    fn number<B>(
        parser: &mut Parser<'_>,
        read: fn(Global, &str) -> Result<Option<B>, AllocError>,
    ) -> Result<B> {
        parser.step(|cursor| {
            let found = cursor.any()?;
            let is_number = |kind| matches!(kind, TokenKind::Float(_) | TokenKind::Integer(_));
            let Some((token, next)) = found.filter(|(token, _)| is_number(token.kind)) else {
                return Err(cursor.error("expected a float"));
            };
            match TEXT.with_borrow(|text| read(Global, token.src(text)))? {
                Some(bits) => Ok((bits, next)),
                None => Err(cursor.error("invalid float value: constant out of range")),
            }
        })
    }

    fn under(parser: &mut Parser<'_>, shown: &str, inside: &[Call]) {
        parser.register_annotation(shown).expect("memory");
        play(parser, inside);
        parser.unregister_annotation(shown);
    }

    fn standard(parser: &mut Parser<'_>, inside: &[Call]) -> Result<()> {
        CALLS.set(inside.to_vec());
        parser
            .with_standard_annotations_registered::<Play>()
            .map(|_| ())
    }

    calls! {}
}
