//! Modules in files.
#![cfg(not(target_family = "wasm"))]

use std::error::Error as _;
use std::path::PathBuf;
use std::{fs, io};
use wat_modules::{Error, Parser, parse_file};

/// The contents of a file, and its module or the printed error.
type Row = (&'static [u8], Result<&'static [u8], &'static str>);

/// Writes a file of this name, and returns its path.
fn file_with(name: &str, contents: &[u8]) -> PathBuf {
    let path = PathBuf::from(env!("CARGO_TARGET_TMPDIR")).join(name);
    fs::write(&path, contents).unwrap();
    path
}

#[test]
fn a_file_is_compiled_or_returned() {
    let rows: [Row; 4] = [
        (b"(module)", Ok(b"\0asm\x01\0\0\0")),
        (b"\0asm\xff", Ok(b"\0asm\xff")),
        (
            b"(module\n ?)",
            Err(
                "expected a module field or `)`, found `?`\n     --> PATH:2:2\n      |\n    2 |  ?)\n      |  ^",
            ),
        ),
        (
            b"\xff",
            Err("the text is not UTF-8\n     --> PATH:1:1\n      |\n    1 | \n      | ^"),
        ),
    ];
    for (contents, wanted) in rows {
        let path = file_with("module.wat", contents);
        let wanted = wanted.map(<[u8]>::to_vec);
        let wanted = wanted.map_err(|text| text.replace("PATH", path.to_str().unwrap()));
        let printed = |error: Error| error.to_string();
        assert_eq!(parse_file(&path).map_err(printed), wanted);
        assert_eq!(Parser::new().parse_file(&path).map_err(printed), wanted);
    }
}

#[test]
fn a_file_that_cannot_be_read_is_an_error() {
    let path = PathBuf::from(env!("CARGO_TARGET_TMPDIR")).join("missing.wat");
    let mut error = parse_file(&path).unwrap_err();
    error.set_path("other.wat");
    let message = format!("failed to read from `{}`", path.display());
    assert_eq!(error.to_string(), message);
    assert_eq!(error.message(), message);
    assert_eq!((error.span().offset(), error.lex_error()), (0, None));
    assert!(!error.is_out_of_memory());
    let cause = error.source().unwrap().downcast_ref::<io::Error>().unwrap();
    assert_eq!(cause.kind(), io::ErrorKind::NotFound);
    let full = format!("{message}: {cause}");
    let error = wat_lex::Error::from(error);
    assert_eq!((error.message(), error.span().offset()), (full, 0));
}
