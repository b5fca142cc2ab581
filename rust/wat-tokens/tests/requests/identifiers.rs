//! Test cases of cloned and generated identifiers.

use crate::refusing::ended;
use crate::row::{Ending, Row};
use wat_lex::proved::error::Error;
use wat_lex::proved::gensym::{FillError, Gensym};
use wat_lex::proved::token::{Id, Index, Span};
use wat_lex::shim::alloc::Global;
use wat_lex::shim::borrow::CowStr;
use wat_lex::shim::string::String as Text;

/// Returns an identifier with an owned name, at byte offset 7.
fn owned_id() -> Result<Id<'static>, Error> {
    let name = CowStr::Owned(Text::from_str(Global, "x")?);
    Ok(Id::from_cow(name, Span::from_offset(7)))
}

fn is_x(id: &Id) -> bool {
    id.name() == "x" && id.span().offset() == 7
}

fn id_copy() -> Result<Ending, Error> {
    let id = owned_id()?;
    let copy = ended(id.clone(Global));
    assert!(is_x(&id));
    let Ok(copy) = copy else {
        return Ok(Ending::Memory);
    };
    assert!(is_x(&copy) && copy == id);
    Ok(Ending::Answer)
}

fn index_copy() -> Result<Ending, Error> {
    let index = Index::Id(owned_id()?);
    let copy = ended(index.clone(Global));
    assert_eq!(index.span().offset(), 7);
    let Ok(copy) = copy else {
        return Ok(Ending::Memory);
    };
    assert!(copy == index && copy.span().offset() == 7);
    Ok(Ending::Answer)
}

/// Checks that filling a slot with an identifier changes neither the slot nor the counter.
fn filled_slot() -> Result<Ending, Error> {
    let (mut gensym, span) = (Gensym::new(), Span::from_offset(0));
    let mut slot = Some(owned_id()?);
    let copy = ended(gensym.fill(Global, Span::from_offset(9), &mut slot));
    assert!(slot.is_some_and(|id| is_x(&id)));
    let (next, first) = (gensym.generate(span), Gensym::new().generate(span));
    assert_eq!(next.expect("an identifier"), first.expect("an identifier"));
    match copy {
        Ok(copy) => {
            assert!(is_x(&copy));
            Ok(Ending::Answer)
        }
        Err(FillError::Memory) => Ok(Ending::Memory),
        Err(FillError::Full) => panic!("the counter is at its end"),
    }
}

/// Checks new and cloned identifiers with a borrowed name, and a cloned numeric index.
fn borrowed_copies() -> Ending {
    let span = Span::from_offset(4);
    let id = Id::new("x", span);
    let same = Id::from_cow(CowStr::Borrowed("x"), span);
    let (copy, number) = ended((id.clone(Global), Index::Num(12, span).clone(Global)));
    let copy = copy.expect("a copy without memory");
    assert!(copy == same && copy.name() == "x" && copy.span() == span);
    assert!(matches!(number, Ok(Index::Num(12, at)) if at == span));
    Ending::Answer
}

/// Checks identifiers that a counter generates, and clones of those with a borrowed name in a slot.
fn fresh() -> Ending {
    let (mut gensym, span) = (Gensym::new(), Span::from_offset(4));
    let (mut empty, mut full) = (None, Some(Id::new("x", span)));
    let made = gensym.generate(span);
    let filled = gensym.fill(Global, span, &mut empty);
    let copied = ended(gensym.fill(Global, span, &mut full));
    assert!(made.is_ok());
    assert!(matches!(filled, Ok(id) if empty.as_ref() == Some(&id)));
    assert!(matches!(copied, Ok(id) if id.name() == "x"));
    Ending::Answer
}

pub fn ending(row: &Row) -> Result<Ending, Error> {
    match row.of {
        "id" => id_copy(),
        "index" => index_copy(),
        "fill" => filled_slot(),
        "borrowed" => Ok(borrowed_copies()),
        "fresh" => Ok(fresh()),
        of => panic!("{}: no {of}", row.name),
    }
}
