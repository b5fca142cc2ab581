/// Defines the benchmark loops over a crate with the names of `wast`. Each expansion names its functions itself, so that callgrind can tell them
/// apart.
macro_rules! layer {
    (
        $layer:ident, $module:ident:
        $parse:ident, $parse_whole:ident, $iter:ident, $iter_whole:ident, $counting:ident, $values:ident, $comments:ident,
        $each:ident, $annotated:ident, $cursors:ident, $peeks:ident, $u32s:ident, $ids:ident, $strings:ident, $floats:ident, $groups:ident, $refused:ident, $linecol:ident, $error:ident
    ) => {
        #[allow(dead_code)]
        mod $module {
            use $layer::lexer::{Float, Lexer, Token, TokenKind};
            use $layer::parser::{self, Cursor, Parse, ParseBuffer, Parser, Result};
            use $layer::token::{F64, Id, LParen, Span};

            mod words {
                $layer::custom_keyword!(word_a = "a");
                $layer::custom_keyword!(word_b = "b");
                $layer::custom_keyword!(word_c = "c");
            }

            /// Returns a distinct weight for each kind.
            pub fn weight(kind: TokenKind) -> u64 {
                match kind {
                    TokenKind::LineComment => 1,
                    TokenKind::BlockComment => 2,
                    TokenKind::Whitespace => 3,
                    TokenKind::LParen => 5,
                    TokenKind::RParen => 7,
                    TokenKind::String => 11,
                    TokenKind::Id => 13,
                    TokenKind::Keyword => 17,
                    TokenKind::Annotation => 19,
                    TokenKind::Reserved => 23,
                    TokenKind::Integer(_) => 29,
                    TokenKind::Float(_) => 31,
                }
            }

            fn whole(token: &Token) -> u64 {
                weight(token.kind) + token.offset as u64 + u64::from(token.len)
            }

            #[inline(never)]
            #[unsafe(no_mangle)]
            pub fn $parse(text: &str) -> u64 {
                let lexer = Lexer::new(text);
                let (mut pos, mut sum) = (0, 0u64);
                while let Ok(Some(token)) = lexer.parse(&mut pos) {
                    sum = sum.wrapping_add(weight(token.kind));
                }
                sum
            }

            #[inline(never)]
            #[unsafe(no_mangle)]
            pub fn $parse_whole(text: &str) -> u64 {
                let lexer = Lexer::new(text);
                let (mut pos, mut sum) = (0, 0u64);
                while let Ok(Some(token)) = lexer.parse(&mut pos) {
                    sum = sum.wrapping_add(whole(&token));
                }
                sum
            }

            #[inline(never)]
            #[unsafe(no_mangle)]
            pub fn $iter(text: &str) -> u64 {
                let lexer = Lexer::new(text);
                let tokens = lexer.iter(0).map_while(std::result::Result::ok);
                tokens.fold(0, |sum, token| sum.wrapping_add(weight(token.kind)))
            }

            #[inline(never)]
            #[unsafe(no_mangle)]
            pub fn $iter_whole(text: &str) -> u64 {
                let lexer = Lexer::new(text);
                let tokens = lexer.iter(0).map_while(std::result::Result::ok);
                tokens.fold(0, |sum, token| sum.wrapping_add(whole(&token)))
            }

            /// Sums the weights of the tokens that are neither whitespace nor comments.
            #[inline(never)]
            #[unsafe(no_mangle)]
            pub fn $counting(text: &str) -> u64 {
                let lexer = Lexer::new(text);
                let (mut pos, mut sum) = (0, 0u64);
                while let Ok(Some(token)) = lexer.parse(&mut pos) {
                    let weight = weight(token.kind);
                    sum = sum.wrapping_add(if weight > 3 { weight } else { 0 });
                }
                sum
            }

            fn ends(bytes: &[u8]) -> u64 {
                let end = |byte: Option<&u8>| u64::from(byte.copied().unwrap_or(0));
                bytes.len() as u64 + end(bytes.first()) + end(bytes.last())
            }

            fn float(float: &Float<'_>) -> u64 {
                let part = |part: Option<&str>| part.map_or(1, |part| ends(part.as_bytes()));
                match float {
                    Float::Nan { val, .. } => part(val.as_deref()),
                    Float::Inf { .. } => 2,
                    Float::Val {
                        integral,
                        fractional,
                        exponent,
                        ..
                    } => {
                        part(Some(integral))
                            + part(fractional.as_deref())
                            + part(exponent.as_deref())
                    }
                }
            }

            /// Reads the token's value, and returns a sum of its length and its first and last byte.
            fn value(token: &Token, text: &str) -> u64 {
                match token.kind {
                    TokenKind::String => ends(&token.string(text)),
                    TokenKind::Id => token.id(text).map_or(0, |name| ends(name.as_bytes())),
                    TokenKind::Annotation => token
                        .annotation(text)
                        .map_or(0, |name| ends(name.as_bytes())),
                    TokenKind::Integer(kind) => ends(token.integer(text, kind).val().0.as_bytes()),
                    TokenKind::Float(kind) => float(&token.float(text, kind)),
                    TokenKind::Keyword => ends(token.keyword(text).as_bytes()),
                    TokenKind::Reserved => ends(token.reserved(text).as_bytes()),
                    TokenKind::LParen | TokenKind::RParen => 0,
                    TokenKind::Whitespace | TokenKind::LineComment | TokenKind::BlockComment => 0,
                }
            }

            #[inline(never)]
            #[unsafe(no_mangle)]
            pub fn $values(text: &str) -> u64 {
                let lexer = Lexer::new(text);
                let tokens = lexer.iter(0).map_while(std::result::Result::ok);
                tokens.fold(0, |sum, token| sum.wrapping_add(value(&token, text)))
            }

            fn comment(token: &Token, text: &str) -> u64 {
                match token.kind {
                    TokenKind::LineComment | TokenKind::BlockComment => {
                        ends(token.src(text).as_bytes())
                    }
                    _ => 0,
                }
            }

            #[inline(never)]
            #[unsafe(no_mangle)]
            pub fn $comments(text: &str) -> u64 {
                let lexer = Lexer::new(text);
                let tokens = lexer.iter(0).map_while(std::result::Result::ok);
                tokens.fold(0, |sum, token| sum.wrapping_add(comment(&token, text)))
            }

            /// Parses a whole text as `T`, and returns its sum; 0 if the text is rejected.
            fn read<T: for<'a> Parse<'a> + Into<u64>>(text: &str) -> u64 {
                let Ok(buffer) = ParseBuffer::new(text) else {
                    return 0;
                };
                parser::parse::<T>(&buffer).map_or(0, T::into)
            }

            /// Consumes the visible token, of any kind except an annotation. Returns its weight and the cursor after it; 0 at the end of the text.
            fn take<'a>(cursor: Cursor<'a>) -> Result<(u64, Cursor<'a>)> {
                if let Some((_, next)) = cursor.keyword()? {
                    return Ok((17, next));
                }
                if let Some(next) = cursor.lparen()? {
                    return Ok((5, next));
                }
                if let Some(next) = cursor.rparen()? {
                    return Ok((7, next));
                }
                if let Some((_, next)) = cursor.integer()? {
                    return Ok((29, next));
                }
                if let Some((_, next)) = cursor.id()? {
                    return Ok((13, next));
                }
                if let Some((_, next)) = cursor.string()? {
                    return Ok((11, next));
                }
                if let Some((_, next)) = cursor.float()? {
                    return Ok((31, next));
                }
                Ok(cursor
                    .reserved()?
                    .map_or((0, cursor), |(_, next)| (23, next)))
            }

            struct Each(u64);

            impl From<Each> for u64 {
                fn from(each: Each) -> u64 {
                    each.0
                }
            }

            impl<'a> Parse<'a> for Each {
                fn parse(parser: Parser<'a>) -> Result<Self> {
                    let mut sum = 0u64;
                    loop {
                        match parser.step(take)? {
                            0 => return Ok(Each(sum)),
                            weight => sum = sum.wrapping_add(weight),
                        }
                    }
                }
            }

            #[inline(never)]
            #[unsafe(no_mangle)]
            pub fn $each(text: &str) -> u64 {
                read::<Each>(text)
            }

            /// The sum over all tokens, including the annotation groups with the name `name`.
            struct Annotated(u64);

            impl From<Annotated> for u64 {
                fn from(annotated: Annotated) -> u64 {
                    annotated.0
                }
            }

            impl<'a> Parse<'a> for Annotated {
                fn parse(parser: Parser<'a>) -> Result<Self> {
                    let _registered = parser.register_annotation("name");
                    let mut sum = 0u64;
                    loop {
                        let weight = parser.step(|cursor| match cursor.annotation()? {
                            Some((name, next)) => Ok((ends(name.as_bytes()), next)),
                            None => take(cursor),
                        })?;
                        if weight == 0 {
                            return Ok(Annotated(sum));
                        }
                        sum = sum.wrapping_add(weight);
                    }
                }
            }

            #[inline(never)]
            #[unsafe(no_mangle)]
            pub fn $annotated(text: &str) -> u64 {
                read::<Annotated>(text)
            }

            /// The sum over all tokens, including the comments between them.
            struct Cursors(u64);

            impl From<Cursors> for u64 {
                fn from(cursors: Cursors) -> u64 {
                    cursors.0
                }
            }

            impl<'a> Parse<'a> for Cursors {
                fn parse(parser: Parser<'a>) -> Result<Self> {
                    let mut sum = 0u64;
                    loop {
                        let weight = parser.step(|cursor| match cursor.comment()? {
                            Some((comment, next)) => Ok((ends(comment.as_bytes()), next)),
                            None => take(cursor),
                        })?;
                        if weight == 0 {
                            return Ok(Cursors(sum));
                        }
                        sum = sum.wrapping_add(weight);
                    }
                }
            }

            #[inline(never)]
            #[unsafe(no_mangle)]
            pub fn $cursors(text: &str) -> u64 {
                read::<Cursors>(text)
            }

            /// The sum over all tokens, and over the results of three peeks at each of them.
            struct Peeks(u64);

            impl From<Peeks> for u64 {
                fn from(peeks: Peeks) -> u64 {
                    peeks.0
                }
            }

            impl<'a> Parse<'a> for Peeks {
                fn parse(parser: Parser<'a>) -> Result<Self> {
                    let mut sum = 0u64;
                    loop {
                        let seen = u64::from(parser.peek::<LParen>()?)
                            + 2 * u64::from(parser.peek2::<words::word_b>()?)
                            + 4 * u64::from(parser.peek3::<u32>()?);
                        let weight = parser.step(take)?;
                        if weight == 0 {
                            return Ok(Peeks(sum));
                        }
                        sum = sum.wrapping_add(seen + weight);
                    }
                }
            }

            #[inline(never)]
            #[unsafe(no_mangle)]
            pub fn $peeks(text: &str) -> u64 {
                read::<Peeks>(text)
            }

            struct Numbers(u64);

            impl From<Numbers> for u64 {
                fn from(numbers: Numbers) -> u64 {
                    numbers.0
                }
            }

            impl<'a> Parse<'a> for Numbers {
                fn parse(parser: Parser<'a>) -> Result<Self> {
                    let mut sum = 0u64;
                    while !parser.is_empty() {
                        sum = sum.wrapping_add(u64::from(parser.parse::<u32>()?));
                    }
                    Ok(Numbers(sum))
                }
            }

            #[inline(never)]
            #[unsafe(no_mangle)]
            pub fn $u32s(text: &str) -> u64 {
                read::<Numbers>(text)
            }

            /// A type whose values form a list; `number` is added to the list's sum.
            trait Item<'a>: Parse<'a> {
                fn number(&self) -> u64;
            }

            impl<'a> Item<'a> for Id<'a> {
                fn number(&self) -> u64 {
                    ends(self.name().as_bytes())
                }
            }

            impl<'a> Item<'a> for &'a [u8] {
                fn number(&self) -> u64 {
                    ends(self)
                }
            }

            impl<'a> Item<'a> for F64 {
                fn number(&self) -> u64 {
                    self.bits
                }
            }

            struct Sum<T>(u64, std::marker::PhantomData<T>);

            impl<'a, T: Item<'a>> Parse<'a> for Sum<T> {
                fn parse(parser: Parser<'a>) -> Result<Self> {
                    let mut sum = 0u64;
                    while !parser.is_empty() {
                        sum = sum.wrapping_add(parser.parse::<T>()?.number());
                    }
                    Ok(Sum(sum, std::marker::PhantomData))
                }
            }

            #[inline(never)]
            #[unsafe(no_mangle)]
            pub fn $ids(text: &str) -> u64 {
                let buffer = ParseBuffer::new(text);
                buffer.map_or(0, |buffer| {
                    parser::parse::<Sum<Id>>(&buffer).map_or(0, |sum| sum.0)
                })
            }

            #[inline(never)]
            #[unsafe(no_mangle)]
            pub fn $strings(text: &str) -> u64 {
                let buffer = ParseBuffer::new(text);
                buffer.map_or(0, |buffer| {
                    parser::parse::<Sum<&[u8]>>(&buffer).map_or(0, |sum| sum.0)
                })
            }

            #[inline(never)]
            #[unsafe(no_mangle)]
            pub fn $floats(text: &str) -> u64 {
                let buffer = ParseBuffer::new(text);
                buffer.map_or(0, |buffer| {
                    parser::parse::<Sum<F64>>(&buffer).map_or(0, |sum| sum.0)
                })
            }

            struct Groups(u64);

            impl From<Groups> for u64 {
                fn from(groups: Groups) -> u64 {
                    groups.0
                }
            }

            impl<'a> Parse<'a> for Groups {
                fn parse(parser: Parser<'a>) -> Result<Self> {
                    let mut sum = 0u64;
                    while !parser.is_empty() {
                        sum = sum.wrapping_add(parser.parens(group)?);
                    }
                    Ok(Groups(sum))
                }
            }

            fn group(parser: Parser<'_>) -> Result<u64> {
                parser.parse::<words::word_a>()?;
                Ok(parser.parens(part)? + parser.parens(part)?)
            }

            fn part(parser: Parser<'_>) -> Result<u64> {
                let mut look = parser.lookahead1();
                if look.peek::<words::word_b>()? {
                    parser.parse::<words::word_b>()?;
                    return Ok(u64::from(parser.parse::<u32>()?));
                }
                if look.peek::<words::word_c>()? {
                    parser.parse::<words::word_c>()?;
                    return Ok(
                        u64::from(parser.parse::<u32>()?) + u64::from(parser.parse::<u32>()?)
                    );
                }
                Err(look.error())
            }

            #[inline(never)]
            #[unsafe(no_mangle)]
            pub fn $groups(text: &str) -> u64 {
                read::<Groups>(text)
            }

            /// Returns the offset of the error in a list of integers; 0 if there is none.
            #[inline(never)]
            #[unsafe(no_mangle)]
            pub fn $refused(text: &str) -> u64 {
                let Ok(buffer) = ParseBuffer::new(text) else {
                    return 0;
                };
                let refused = parser::parse::<Numbers>(&buffer).err();
                refused.map_or(0, |error| error.span().offset() as u64)
            }

            #[inline(never)]
            #[unsafe(no_mangle)]
            pub fn $linecol(text: &str) -> u64 {
                let (line, column) = Span::from_offset(text.len() - 1).linecol_in(text);
                (line + column) as u64
            }

            #[inline(never)]
            #[unsafe(no_mangle)]
            pub fn $error(text: &str) -> u64 {
                let mut pos = text.len() - 1;
                match Lexer::new(text).parse(&mut pos) {
                    Ok(_) => 0,
                    Err(error) => error.to_string().len() as u64,
                }
            }
        }
    };
}
pub(crate) use layer;
