//! Test cases of a user-defined word, and of syntax that is built without a text.

use crate::refusing::ended;
use crate::row::{Ending, Row};
use crate::sources::Buffer;
use wat_lex::proved::error::Error;
use wat_lex::shim::alloc::Global;
use wat_lex::shim::borrow::CowStr;
use wat_lex::shim::string::String as Text;
use wat_parser::proved::token::{Id, Index, ItemRef, NameAnnotation, ReservedSymbol, Span, Word};
use wat_parser::proved::{annotation, kw};

/// The reserved symbol `,`.
#[derive(Clone, Copy, Debug)]
pub struct Comma;

impl Word for Comma {
    const AT: bool = false;

    fn word() -> &'static str {
        ","
    }

    fn display() -> &'static str {
        "`,`"
    }
}

/// Returns the reference `(func $f)` with `$f` at byte offset 7.
fn item(name: CowStr<'_>) -> ItemRef<'_, kw::func> {
    ItemRef {
        kind: kw::func::new(Span::from_offset(2)),
        idx: Index::Id(Id::from_cow(name, Span::from_offset(7))),
    }
}

fn is_copy(item: &ItemRef<kw::func>, copy: &ItemRef<kw::func>) -> bool {
    copy.kind.span == item.kind.span && copy.idx == item.idx
}

/// Clones a reference with an owned name.
fn item_copy(row: &Row) -> Result<Ending, Error> {
    let item = item(CowStr::Owned(Text::from_str(Global, "f")?));
    let copy = ended(item.clone(Global));
    assert_eq!(item.idx.span().offset(), 7, "{}", row.name);
    let Ok(copy) = copy else {
        return Ok(Ending::Memory);
    };
    assert!(is_copy(&item, &copy), "{}", row.name);
    Ok(Ending::Answer)
}

/// Clones an annotation with an owned name.
fn name_copy(row: &Row) -> Result<Ending, Error> {
    let name = NameAnnotation {
        name: CowStr::Owned(Text::from_str(Global, "m")?),
    };
    let copy = ended(name.clone(Global));
    assert_eq!(name.name.as_str(), "m", "{}", row.name);
    let Ok(copy) = copy else {
        return Ok(Ending::Memory);
    };
    assert!(copy == name, "{}", row.name);
    Ok(Ending::Answer)
}

/// Checks calls that do not allocate: cloning a reference with a borrowed name, words with a span, and lemmas, which have no effect.
fn made(row: &Row) -> Result<Ending, Error> {
    let buffer = row.source.buffer(&row.text)?;
    let (mut parser, at) = (buffer.parser(), Span::from_offset(2));
    let item = item(CowStr::Borrowed("f"));
    let copy = item.clone(Global);
    let words = (ReservedSymbol::<Comma>::new(at), annotation::name::new(at));
    match &buffer {
        Buffer::Table(buffer) => buffer.lemma_sound(),
        Buffer::Text(buffer) => buffer.lemma_sound(),
    }
    parser.lemma_sound();
    let step = ended(parser.step(|cursor| {
        cursor.lemma_sound();
        Ok(((), cursor))
    }));
    assert!(copy.is_ok_and(|copy| is_copy(&item, &copy)), "{}", row.name);
    assert!(words.0.span == at && words.1.span == at && item.kind.span == at);
    assert!(
        step.is_ok() && parser.prev_span().offset() == 0,
        "{}",
        row.name
    );
    Ok(Ending::Answer)
}

pub fn ending(row: &Row) -> Result<Ending, Error> {
    match row.of {
        "name-clone" => name_copy(row),
        "item-clone" => item_copy(row),
        "made" => made(row),
        of => panic!("{}: no {of}", row.name),
    }
}
