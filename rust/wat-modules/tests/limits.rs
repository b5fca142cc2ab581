//! Integers at the limit of 32 bits, and counted sizes: neither may depend on the width of `usize`.

use wat_modules::parse_str;

const HEADER: &[u8] = b"\0asm\x01\0\0\0";
/// The encoding of `u32::MAX`.
const MOST: &[u8] = b"\xff\xff\xff\xff\x0f";

/// Returns the bytes after the header, or an error's message and offset.
fn compile(text: &str) -> Result<Vec<u8>, (String, usize)> {
    match parse_str(text) {
        Ok(bytes) => Ok(bytes.strip_prefix(HEADER).unwrap().to_vec()),
        Err(error) => Err((error.message().as_str().to_owned(), error.span().offset())),
    }
}

/// Checks the bytes of a text with `u32::MAX` in place of `#`, and that the next integer is rejected there.
fn check(text: &str, wanted: &[u8]) {
    let most = text.replace('#', "4294967295");
    assert_eq!(compile(&most), Ok(wanted.to_vec()), "{most}");
    let above = text.replace('#', "4294967296");
    let message = "number out of range: expected 0 to 4294967295, found `4294967296`";
    let error = (message.to_owned(), text.find('#').unwrap());
    assert_eq!(compile(&above), Err(error), "{above}");
}

#[test]
fn integers_of_fields_are_below_2_to_the_32() {
    let rows: [(&str, &[u8], &[u8]); 8] = [
        ("(memory #)", b"\x05\x07\x01\x00", b""),
        ("(memory 0 #)", b"\x05\x08\x01\x01\x00", b""),
        ("(table # funcref)", b"\x04\x08\x01\x70\x00", b""),
        ("(table 0 # funcref)", b"\x04\x09\x01\x70\x01\x00", b""),
        ("(start #)", b"\x08\x05", b""),
        ("(export \"e\" (func #))", b"\x07\x09\x01\x01e\x00", b""),
        (
            "(data (memory #) (offset i32.const 0) \"\")",
            b"\x0b\x0b\x01\x02",
            b"\x41\x00\x0b\x00",
        ),
        (
            "(elem (table #) (offset i32.const 0) func)",
            b"\x09\x0c\x01\x02",
            b"\x41\x00\x0b\x00\x00",
        ),
    ];
    for (text, before, after) in rows {
        check(text, &[before, MOST, after].concat());
    }
}

#[test]
fn integers_of_instructions_are_below_2_to_the_32() {
    let rows: [(&str, &[u8]); 5] = [
        ("(func br #)", b"\x0c"),
        ("(func call #)", b"\x10"),
        ("(func local.get #)", b"\x20"),
        ("(func global.set #)", b"\x24"),
        ("(func table.size #)", b"\xfc\x10"),
    ];
    for (text, opcode) in rows {
        check(text, &function(&[opcode, MOST].concat()));
    }
    let most = "(func i32.load8_u offset=4294967295)";
    let wanted = function(&[b"\x2d\x00", MOST].concat());
    assert_eq!(compile(most), Ok(wanted));
    let above = "(func i32.load8_u offset=4294967296)";
    let message = "unknown instruction `offset=4294967296`";
    assert_eq!(compile(above), Err((message.to_owned(), 18)));
}

/// Returns the sections of a module of one function with this instruction.
fn function(instruction: &[u8]) -> Vec<u8> {
    let length = u8::try_from(instruction.len()).unwrap() + 2;
    let sections = b"\x01\x04\x01\x60\x00\x00\x03\x02\x01\x00\x0a";
    let code = [length + 2, 1, length, 0];
    [sections, &code[..], instruction, b"\x0b"].concat()
}

/// The range of an integer of 32 bits without a sign, and with one.
const UNSIGNED: &str = "0 to 4294967295";
const SIGNED: &str = "-2147483648 to 2147483647";

/// The range of an integer of 64 bits with a sign.
const LONG: &str = "-9223372036854775808 to 9223372036854775807";

#[test]
fn constants_have_their_own_limits() {
    let rows = [
        ("i32.const", "4294967295", "4294967296", UNSIGNED),
        ("i32.const", "-2147483648", "-2147483649", SIGNED),
        ("i32.const", "+2147483647", "+2147483648", SIGNED),
        (
            "i64.const",
            "-9223372036854775808",
            "-9223372036854775809",
            LONG,
        ),
        (
            "i64.const",
            "+9223372036854775807",
            "+9223372036854775808",
            LONG,
        ),
    ];
    for (opcode, most, above, range) in rows {
        assert!(
            compile(&format!("(func {opcode} {most})")).is_ok(),
            "{most}"
        );
        let message = format!("number out of range: expected {range}, found `{above}`");
        let error = (message, 16);
        let text = format!("(func {opcode} {above})");
        assert_eq!(compile(&text), Err(error), "{text}");
    }
    let wanted = function(b"\x42\x80\x80\x80\x80\x10");
    assert_eq!(compile("(func i64.const 4294967296)"), Ok(wanted));
    let wanted = function(b"\x42\x7f");
    assert_eq!(compile("(func i64.const 18446744073709551615)"), Ok(wanted));
}

/// Checks that an inline memory has as many pages as its strings fill, and that an inline table has as many entries as its elements.
#[test]
fn memories_and_tables_have_counted_sizes() {
    for (length, pages) in [(0, 0), (1, 1), (0x1_0000, 1), (0x1_0001, 2)] {
        let text = format!("(memory (data \"{}\"))", "a".repeat(length));
        let bytes = compile(&text).unwrap();
        assert_eq!(bytes[..6], [5, 4, 1, 1, pages, pages], "{length}");
    }
    for length in [0, 1, 2, 100] {
        let text = format!("(table funcref (elem{}))", " 0".repeat(length.into()));
        let bytes = compile(&text).unwrap();
        assert_eq!(bytes[..7], [4, 5, 1, 0x70, 1, length, length], "{length}");
    }
}
