//! Sequences of calls of parsers, cursors and lookaheads.

use crate::calls::{ANY, Call, NAMES, calls};
use crate::settings::Settings;
use crate::sides::{TEXT, layer, proved};
use crate::texts::{Random, rounds};

/// Runs calls from the start of a text through both sides, compares the results, and returns them.
fn compare(text: &str, settings: &Settings, calls: &[Call]) -> Vec<String> {
    let [ours, theirs] = both(text, settings, calls);
    assert_eq!(ours, theirs, "{text:?} {settings:?} {calls:?}");
    ours
}

fn both(text: &str, settings: &Settings, calls: &[Call]) -> [Vec<String>; 2] {
    TEXT.set(text.to_owned());
    let ours = layer::answers(&settings.buffer(text), calls);
    [ours, proved::answers(&settings.proved_buffer(text), calls)]
}

#[test]
fn calls_have_the_same_results() {
    let (mut random, mut whole, mut results) = (Random(1), 0, 0);
    let plays = rounds(1_000);
    for _ in 0..plays {
        let most = if random.once_in(8) { 60 } else { 12 };
        let (text, settings) = (random.text(most), Settings::random(&mut random));
        let told = compare(&text, &settings, &calls(&mut random, 3, true));
        whole += usize::from(told.last().is_some_and(|end| end == "()"));
        results += told.len();
    }
    println!("{results} results, {whole} whole texts of {plays}");
    assert!(
        results > 10 * plays && whole > plays / 20,
        "{results} {whole}"
    );
}

/// Checks that kept tokens change nothing while the registered names stay the same.
#[test]
fn kept_tokens_are_those_of_the_same_names() {
    let mut random = Random(2);
    for _ in 0..rounds(400) {
        let mut settings = Settings::random(&mut random);
        settings.keep = vec![random.once_in(2), true];
        let text = random.text(40);
        let mut inside = calls(&mut random, 3, false);
        inside.push(Call::Rest);
        let calls = [Call::Under(random.pick(NAMES), inside)];
        // The last two results are those after the name is unregistered.
        let [ours, theirs] = both(&text, &settings, &calls).map(|mut results| {
            results.truncate(results.len() - 2);
            results
        });
        assert_eq!(ours, theirs, "{text:?} {settings:?} {calls:?}");
    }
}

#[test]
fn groups_in_groups_have_a_maximum_depth() {
    for depth in [99, 100, 101, 102] {
        let deep = (0..depth).fold(vec![Call::Look], |inside, _| {
            vec![Call::Group(inside, false)]
        });
        let text = "(".repeat(depth) + &")".repeat(depth);
        let told = compare(&text, &Settings::default(), &deep);
        let is_deep = told
            .iter()
            .any(|result| result.contains("item nesting too deep"));
        assert_eq!(is_deep, depth > 100, "{depth}");
    }
}

/// Checks a text with a token of more than 64 KiB, with more tokens after it than a buffer has rows, and one with 16 MiB of whitespace.
#[test]
fn tokens_are_found_in_long_texts() {
    let tokens = "(a) $b 1 (@a x) \"\\61\" ".repeat(30);
    let text = format!("\"{}\"\n{tokens}\u{e9}", "a".repeat(70_000));
    let calls = [
        Call::Step(vec![ANY; 3], false),
        Call::Step(vec![ANY; 100], true),
        Call::Under("a", vec![Call::Rest]),
        Call::Rest,
    ];
    compare(&text, &Settings::default(), &calls);
    let text = " ".repeat(0x100_0003) + &tokens;
    compare(&text, &Settings::default(), &vec![Call::Next; 70]);
}

#[test]
fn display_names_are_the_same() {
    assert_eq!(layer::displays(), proved::displays());
}

/// Checks the `Debug` text of a cursor, which has the end offset of the consumed tokens.
#[test]
fn a_cursor_shows_its_offset() {
    struct Shown(String);
    impl<'a> layer::Parse<'a> for Shown {
        fn parse(parser: layer::Parser<'a>) -> layer::Result<Self> {
            parser.step(|cursor| {
                let next = cursor.keyword()?.expect("a keyword").1;
                Ok((Shown(format!("{cursor:?} {next:?}")), next))
            })
        }
    }
    let buffer = layer::ParseBuffer::new(" func").unwrap();
    let Shown(shown) = layer::parse(&buffer).unwrap();
    assert_eq!(shown, "Cursor { offset: 0, .. } Cursor { offset: 5, .. }");
}
