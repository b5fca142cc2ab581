pub use wat_lex::Error;
