//! The table of instructions against the verified one.

use wat_language_server::index_spaces::{INSTRUCTIONS, Immediate, Occurs, Space, instruction};
use wat_modules::ast::table::{Immediate as Verified, find};

/// Source of the verified table, in which each row begins with a macro and the quoted keyword.
const ROWS: &str = include_str!("../../../wat-modules/src/generated/wat_module_ast/table.rs");

/// Returns the keywords of the verified table.
fn verified_words() -> Vec<&'static str> {
    let rows = ROWS.split("row!(\"").chain(ROWS.split("prefixed!(\""));
    let lines = rows.filter_map(|row| row.split_once("\", 0x"));
    let words = lines.map(|line| line.0).chain(multiline_words());
    let mut words: Vec<_> = words.filter(|word| !word.contains(['"', '\n'])).collect();
    words.sort_unstable();
    words.dedup();
    words
}

/// Returns the keywords of rows of several lines.
fn multiline_words() -> impl Iterator<Item = &'static str> {
    let lines = ROWS.lines().map(str::trim);
    lines.filter_map(|line| line.strip_prefix('"')?.strip_suffix("\","))
}

/// Returns the immediates that are indices, as the verified table has them.
fn indices(immediate: Verified) -> Vec<Immediate> {
    let of = |space, occurs| Immediate { space, occurs };
    let once = |space| vec![Immediate::once(space)];
    let table = of(Space::Table, Occurs::Optional);
    match immediate {
        Verified::Local => once(Space::Local),
        Verified::Label => once(Space::Label),
        Verified::Labels => vec![of(Space::Label, Occurs::Repeated)],
        Verified::Func => once(Space::Function),
        Verified::Global => once(Space::Global),
        Verified::Data | Verified::MemoryInit => once(Space::Data),
        Verified::Elem => once(Space::Element),
        // The type use of `call_indirect` is a group.
        Verified::Table | Verified::Indirect => vec![table],
        Verified::TableCopy => vec![table, table],
        Verified::TableInit => vec![table, Immediate::once(Space::Element)],
        Verified::No
        | Verified::I32
        | Verified::I64
        | Verified::F32
        | Verified::F64
        | Verified::Memory(_)
        | Verified::Zero
        | Verified::HeapType
        | Verified::Select
        | Verified::Zeros
        | Verified::Lane
        | Verified::MemoryLane(_)
        | Verified::Shuffle
        | Verified::Vector => vec![],
    }
}

#[test]
fn each_instruction_has_the_verified_immediates() {
    let words = verified_words();
    assert_eq!(words.len(), 431);
    for word in words {
        let row = find(word).unwrap_or_else(|| panic!("{word}"));
        let found = instruction(word).unwrap_or_else(|| panic!("{word}"));
        assert_eq!(found.immediates, indices(row.immediate), "{word}");
    }
}

#[test]
fn each_other_instruction_is_a_block() {
    let others = INSTRUCTIONS.iter().map(|it| it.word);
    let others: Vec<_> = others.filter(|word| find(word).is_none()).collect();
    assert_eq!(others, ["block", "loop", "if"]);
    assert_eq!(INSTRUCTIONS.len(), 434);
}

/// Types from chapter 3.3 of the standard.
#[test]
fn each_instruction_has_a_type() {
    let types = [
        ("drop", "[t] -> []"),
        ("select", "[t t i32] -> [t]"),
        ("local.tee", "[t] -> [t]"),
        ("i32.eqz", "[i32] -> [i32]"),
        ("i64.eqz", "[i64] -> [i32]"),
        ("f64.lt", "[f64 f64] -> [i32]"),
        ("i64.extend_i32_u", "[i32] -> [i64]"),
        ("i64.extend8_s", "[i64] -> [i64]"),
        ("i32.trunc_sat_f64_s", "[f64] -> [i32]"),
        ("f32.reinterpret_i32", "[i32] -> [f32]"),
        ("f64.promote_f32", "[f32] -> [f64]"),
        ("i32.wrap_i64", "[i64] -> [i32]"),
        ("i64.store8", "[i32 i64] -> []"),
        ("table.grow", "[t i32] -> [i32]"),
        ("memory.grow", "[i32] -> [i32]"),
        ("v128.bitselect", "[v128 v128 v128] -> [v128]"),
        ("i64x2.splat", "[i64] -> [v128]"),
        ("i8x16.extract_lane_s", "[v128] -> [i32]"),
        ("f32x4.replace_lane", "[v128 f32] -> [v128]"),
        ("i16x8.shl", "[v128 i32] -> [v128]"),
        ("v128.load8_lane", "[i32 v128] -> [v128]"),
        ("v128.store64_lane", "[i32 v128] -> []"),
        ("i32x4.bitmask", "[v128] -> [i32]"),
    ];
    for (word, signature) in types {
        assert_eq!(instruction(word).unwrap().signature, signature, "{word}");
    }
    for it in INSTRUCTIONS.iter() {
        let sides = it.signature.split_once(" -> ");
        let is_list = |side: &str| side.starts_with('[') && side.ends_with(']');
        assert!(
            sides.is_some_and(|(from, to)| is_list(from) && is_list(to)),
            "{}",
            it.word
        );
    }
}
