/// Defines the loops that tools/bench/benchmark_rust lacks, over a crate with the names of `wast`.
macro_rules! calls {
    ($layer:ident, $module:ident: $collect:ident, $buffer:ident, $rejected:ident) => {
        mod $module {
            use $layer::lexer::Lexer;
            use $layer::parser::{self, ParseBuffer};

            mod words {
                $layer::custom_keyword!(absent);
            }

            /// Returns the number of tokens, which are collected, and the offset of the last.
            #[inline(never)]
            #[unsafe(no_mangle)]
            pub fn $collect(text: &str) -> u64 {
                let tokens: Result<Vec<_>, _> = Lexer::new(text).iter(0).collect();
                tokens.map_or(0, |tokens| {
                    let last = tokens.last().map_or(0, |token| token.offset);
                    (tokens.len() + last) as u64
                })
            }

            /// Returns the number of buffers that are created for the text.
            #[inline(never)]
            #[unsafe(no_mangle)]
            pub fn $buffer(text: &str) -> u64 {
                let is_new = |_| std::hint::black_box(ParseBuffer::new(text)).is_ok();
                (0..crate::BUFFERS).map(is_new).map(u64::from).sum()
            }

            /// Returns the sum of the lengths of the messages with which the first token is rejected, and of its offsets.
            #[inline(never)]
            #[unsafe(no_mangle)]
            pub fn $rejected(text: &str) -> u64 {
                let reject = |_| {
                    let buffer = ParseBuffer::new(text).ok()?;
                    let error = parser::parse::<words::absent>(&buffer).err()?;
                    Some((error.to_string().len() + error.span().offset()) as u64)
                };
                (0..crate::rejections(text)).filter_map(reject).sum()
            }
        }
    };
}
pub(crate) use calls;
