//! Parses a custom format from standard input: `(recipe $bread "Bread" (flour 500) (water 350))`, in which the name is optional.

use std::{io, process};
use wat_parser::parser::{self, Parse, ParseBuffer, Parser, Peek, Result};
use wat_parser::token::Id;
use wat_parser::{Error, custom_keyword};

custom_keyword!(recipe);
custom_keyword!(flour);
custom_keyword!(water);

struct Recipe<'a> {
    id: Option<Id<'a>>,
    title: &'a str,
    lines: Vec<(u32, &'static str)>,
}

impl<'a> Parse<'a> for Recipe<'a> {
    fn parse(parser: Parser<'a>) -> Result<Self> {
        parser.parens(|parser| {
            parser.parse::<recipe>()?;
            let (id, title) = (parser.parse()?, parser.parse()?);
            let mut lines = Vec::new();
            while !parser.is_empty() {
                lines.push(parser.parens(line)?);
            }
            Ok(Recipe { id, title, lines })
        })
    }
}

fn line(parser: Parser) -> Result<(u32, &'static str)> {
    let mut look = parser.lookahead1();
    let what = if look.peek::<flour>()? {
        parser.parse::<flour>()?;
        flour::display()
    } else if look.peek::<water>()? {
        parser.parse::<water>()?;
        water::display()
    } else {
        return Err(look.error());
    };
    Ok((parser.parse()?, what))
}

fn main() {
    let text = io::read_to_string(io::stdin()).expect("text on standard input");
    let buffer = ParseBuffer::new(&text).unwrap_or_else(fail);
    let Recipe { id, title, lines } = parser::parse(&buffer).unwrap_or_else(fail);
    println!("{title} ({})", id.map_or("no name", |id| id.name()));
    for (grams, what) in lines {
        println!("  {grams} g of {what}");
    }
}

#[allow(clippy::needless_pass_by_value)]
fn fail<T>(error: Error) -> T {
    eprintln!("{error}");
    process::exit(1)
}
