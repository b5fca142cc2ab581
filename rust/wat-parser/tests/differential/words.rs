//! Types of the standard keywords and annotations.

use crate::sides::{Refusal, told};
use std::collections::HashSet;
use wat_parser::parser::{Parse, ParseBuffer, Parser, Peek, Result, parse};
use wat_parser::proved::parser as proved_parser;
use wat_parser::shim::alloc::Global;

/// A standard word: its type in the layer and in the verified code.
struct Word {
    displays: [fn() -> &'static str; 2],
    peek: fn(Parser<'_>) -> Result<bool>,
    parses: [fn(&str) -> String; 2],
}

/// Lists the types of words, which have the same name on both sides, or another one in each.
macro_rules! words {
    ($list:ident $module:ident: $($same:ident)* $(, $ours:ident = $theirs:ident)*) => {
        const $list: &[Word] = &[
            $(words!(@word wat_parser::$module::$same, wat_parser::proved::$module::$same),)*
            $(words!(@word wat_parser::$module::$ours, wat_parser::proved::$module::$theirs),)*
        ];
    };
    (@word $ours:ty, $theirs:ty) => {
        Word {
            displays: [<$ours as Peek>::display, <$theirs as proved_parser::Peek>::display],
            peek: |parser| parser.peek::<$ours>(),
            parses: [
                |text| {
                    let buffer = ParseBuffer::new(text).unwrap();
                    told(parse::<$ours>(&buffer).map(|word| format!("{:?}", word.0)))
                },
                |text| {
                    let buffer = proved_parser::ParseBuffer::new(Global, text).unwrap();
                    let word = proved_parser::parse::<$theirs>(&buffer);
                    told(word.map(|word| format!("{:?}", word.span)))
                },
            ],
        }
    };
}

words! {
    KEYWORDS kw:
    acqrel after alias any anyref arg array arrayref assert_exception assert_exhaustion assert_invalid assert_invalid_custom assert_malformed
    assert_malformed_custom assert_return assert_suspension assert_trap assert_unlinkable backpressure_dec backpressure_inc before binary block bool_
    borrow callback cancellable canon case catch catch_all catch_all_ref catch_ref char code component cont context_get context_set contref core_type
    data declare definition delegate describes descriptor dtor elem end entry enum_ eq eqref error error_context error_context_debug_message
    error_context_drop error_context_new exact exn exnref export export_info external_id externref f32 f32x4 f64 f64x2 false_ field first flags
    float32 float64 func funcref future future_cancel_read future_cancel_write future_drop_readable future_drop_writable future_forward future_new
    future_read future_write gc get global i16 i16x8 i31 i31ref i32 i32x4 i64 i64x2 i8 i8x16 implements import import_info instance instantiate
    interface invoke item language last lift list local lower map mem_info memory module modulecode nan_arithmetic nan_canonical needed nocont noexn
    noextern nofunc none null nullcontref nullexnref nullexternref nullfuncref nullref offset on option outer own pagesize param parent passive
    post_return processed_by quote realloc rec record ref_func ref_null register rep resource resource_drop resource_new resource_rep result
    runtime_path s16 s32 s64 s8 sdk seqcst shared start stream stream_cancel_read stream_cancel_write stream_drop_readable stream_drop_writable
    stream_forward stream_new stream_read stream_write string string_latin1_utf16 string_utf16 string_utf8 structref sub subtask_cancel subtask_drop
    switch table tag target_arch task_cancel task_return then thread thread_available_parallelism thread_index thread_new_indirect thread_resume_later
    thread_spawn_indirect thread_spawn_ref thread_suspend thread_suspend_then_promote thread_suspend_then_resume thread_yield
    thread_yield_then_promote thread_yield_then_resume true_ tuple u16 u32 u64 u8 v128 value variant version_suffix wait waitable_join
    waitable_set_drop waitable_set_new waitable_set_poll waitable_set_wait with
    , core = core_, r#async = async_, r#do = do_, r#else = else_, r#extern = extern_, r#final = final_, r#if = if_, r#loop = loop_, r#mut = mut_,
    r#ref = ref_, r#struct = struct_, r#try = try_, r#type = type_
}

words! {
    ANNOTATIONS annotation:
    custom name producers dylink_0 metadata_code_branch_hint
}

impl Word {
    /// Returns the lexeme, which is the display name without its backquotes.
    fn lexeme(&self) -> &'static str {
        (self.displays[0])().trim_matches('`')
    }
}

/// Peeks at a text as each of the words.
struct Peeks(Vec<bool>);

impl<'a> Parse<'a> for Peeks {
    fn parse(parser: Parser<'a>) -> Result<Self> {
        let words = KEYWORDS.iter().chain(ANNOTATIONS);
        let peeks = words
            .map(|word| (word.peek)(parser))
            .collect::<Result<_>>()?;
        parser.step(|cursor| {
            let keyword = cursor.keyword()?.map(|(_, next)| next);
            let annotation = cursor.annotation()?.map(|(_, next)| next);
            Ok(((), keyword.or(annotation).unwrap()))
        })?;
        Ok(Peeks(peeks))
    }
}

/// Checks that each type recognizes its own word and no other one, and parses as the verified type does.
#[test]
fn each_word_has_a_type() {
    let words: Vec<&Word> = KEYWORDS.iter().chain(ANNOTATIONS).collect();
    let lexemes: Vec<&str> = words.iter().map(|word| word.lexeme()).collect();
    assert_eq!((KEYWORDS.len(), ANNOTATIONS.len()), (233, 5));
    assert_eq!(lexemes.iter().collect::<HashSet<_>>().len(), words.len());
    for (number, word) in words.iter().enumerate() {
        let [ours, theirs] = word.displays;
        assert_eq!(ours(), theirs());
        let buffer = ParseBuffer::new(lexemes[number]).unwrap();
        let Peeks(peeks) = parse(&buffer).unwrap_or_else(|error| panic!("{}", error.refusal()));
        let seen = (0..words.len()).filter(|other| peeks[*other]);
        assert!(seen.eq([number]), "{}", lexemes[number]);
        let other = lexemes[(number + 1) % words.len()];
        for text in [
            format!(" {}", lexemes[number]),
            other.to_owned(),
            String::new(),
        ] {
            let [ours, theirs] = word.parses;
            assert_eq!(ours(&text), theirs(&text), "{text}");
        }
    }
}
