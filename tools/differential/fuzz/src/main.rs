//! Differential fuzzing of the crates of this repository against the crate `wast`. Compares tokens with their values, printed errors, parsed
//! types, and calls of a parser, on random texts. A text with different results is printed, with both results; the run ends after eight such
//! texts. Without the feature `wast`, only the layer and the proved modules below it are compared with each other. At the end it prints a sum
//! over all results, which is the same on every machine, unless compilers differ in the characters that `{:?}` escapes.
//!
//! usage: fuzz SEED COUNT [FILE or FOLDER]..
//!        fuzz --program PROGRAM SEED COUNT [FILE or FOLDER]..
//!        fuzz --sources SEED COUNT [FILE or FOLDER]..
//!
//! The second form compares the crates with the lists and printed errors of the program `wat_tokens`, as built by Rattle's compiler. The third
//! compares the proved parser over a table with the one over the text itself, and with the layer, by making the same calls of each.

mod program;
mod proved;
mod random;
mod report;
mod sources;
mod texts;

/// The calls of the crates of this repository.
mod ours {
    use wat_parser as layer;

    fn keep_shown(buffer: &mut ParseBuffer<'_>, keep: bool) {
        buffer.keep_shown(keep);
    }

    include!("answers.rs");
}

/// The calls of the original.
#[cfg(feature = "wast")]
mod theirs {
    use wast as layer;

    /// Does nothing: the original always caches visible tokens.
    fn keep_shown(_: &mut ParseBuffer<'_>, _: bool) {}

    include!("answers.rs");
}

use random::Random;
use report::Answers;
use std::error::Error;
use std::path::Path;
use std::process::ExitCode;
use std::{env, fs};
use texts::Texts;

/// The number of texts with different results after which the run ends.
const MOST_DIFFERENCES: u64 = 8;

/// The number of types that `answers.rs` parses; the last two are floating-point types.
const TYPES: usize = 24;

/// The largest number of types that one text is parsed as.
const TYPES_OF_A_TEXT: usize = 8;

/// The counts of a run, and the sum over all results.
#[derive(Default)]
struct Totals {
    texts: u64,
    tokens: u64,
    faults: u64,
    others: u64,
    different: u64,
    sum: u64,
}

impl Totals {
    fn add(&mut self, answers: &Answers) {
        self.texts += 1;
        self.tokens += answers.tokens;
        self.faults += answers.faults;
        self.others += answers.others;
        self.sum = answers.text.bytes().fold(self.sum, |sum, byte| {
            (sum ^ u64::from(byte)).wrapping_mul(0x100_0000_01b3)
        });
    }

    fn compare(&mut self, text: &str, name: &str, ours: &Answers, other: &Answers) {
        self.compare_two(text, ["layer", name], ours, other);
    }

    /// Compares the results of two sources with these names.
    fn compare_two(
        &mut self,
        text: &str,
        [name, other_name]: [&str; 2],
        ours: &Answers,
        other: &Answers,
    ) {
        if ours.text == other.text {
            return;
        }
        self.different += 1;
        println!("DIFFERENT: {text:?}");
        let lines = ours.text.lines().zip(other.text.lines());
        match lines.into_iter().find(|(ours, other)| ours != other) {
            Some((ours, other)) => println!("  {name}: {ours}\n  {other_name}: {other}"),
            None => println!("  one of {name} and {other_name} ends first"),
        }
    }

    fn print(&self) {
        println!(
            "{} texts, {} tokens, {} faults, {} answers of readings and parsers, {} differ, sum {:016x}",
            self.texts, self.tokens, self.faults, self.others, self.different, self.sum
        );
    }
}

/// The comparison made for a text in addition to its tokens.
enum Question {
    /// The types to parse the text as, from the one with this index on.
    Types(usize),
    /// Random calls of a parser, from this seed.
    Play(u64),
}

impl Question {
    fn new(random: &mut Random) -> Question {
        if random.is_one_in(2) {
            Question::Types(random.below(TYPES))
        } else {
            Question::Play(random.next())
        }
    }
}

/// Returns the number of types that a text is parsed as. Leaves out the floating-point types if `wast` may round differently, as
/// docs/compatibility.md says: for more than 8 hexadecimal digits, or an exponent that may not fit in 32 bits.
fn types_for(text: &str) -> usize {
    let is_rounded_otherwise = text.split("0x").skip(1).any(|number| {
        let after = number.trim_start_matches(|c: char| c.is_ascii_hexdigit() || "._".contains(c));
        let exponent = after.trim_start_matches(['p', 'P', '+', '-']);
        let rest = exponent.trim_start_matches(|c: char| c.is_ascii_digit() || c == '_');
        number.len() - after.len() > 8 || exponent.len() - rest.len() > 8
    });
    if is_rounded_otherwise {
        TYPES - 2
    } else {
        TYPES
    }
}

macro_rules! ask {
    ($layer:ident, $text:expr, $allow:expr, $question:expr) => {{
        let mut answers = Answers::default();
        $layer::tokens($text, $allow, &mut answers);
        match $question {
            Question::Types(first) => {
                for number in (first..types_for($text)).take(TYPES_OF_A_TEXT) {
                    $layer::typed($text, $allow, number, &mut answers);
                }
            }
            Question::Play(seed) => $layer::play($text, $allow, seed, &mut answers),
        }
        answers
    }};
}

/// Compares the tokens of the layer with those of the proved modules, and each type that has a proved form.
fn compare_with_proved(totals: &mut Totals, text: &str, allow: bool, question: &Question) {
    let (mut ours, mut proved) = (Answers::default(), Answers::default());
    ours::tokens(text, allow, &mut ours);
    proved::tokens(text, allow, &mut proved);
    if let Question::Types(first) = *question {
        for number in (first..proved::TYPES).take(TYPES_OF_A_TEXT) {
            ours::typed(text, allow, number, &mut ours);
            proved::typed(&proved::Source::table(text, allow), number, &mut proved);
        }
    }
    totals.compare(text, "proved", &ours, &proved);
}

fn compare_texts(seed: u64, count: u64, files: Vec<String>) -> Totals {
    let mut totals = Totals::default();
    let mut random = Random::new(seed);
    let mut texts = Texts::new(Random::new(random.next()), files, texts::ALL);
    while totals.texts < count && totals.different < MOST_DIFFERENCES {
        let text = texts.next();
        let (allow, question) = (random.is_one_in(2), Question::new(&mut random));
        compare_with_proved(&mut totals, &text, allow, &question);
        let ours = ask!(ours, &text, allow, question);
        #[cfg(feature = "wast")]
        totals.compare(&text, "wast", &ours, &ask!(theirs, &text, allow, question));
        totals.add(&ours);
    }
    totals
}

/// Returns the text of a file, or of each file of a folder; skips texts that are not UTF-8.
fn texts_of(path: &Path) -> Result<Vec<String>, Box<dyn Error>> {
    if !path.is_dir() {
        return Ok(String::from_utf8(fs::read(path)?).into_iter().collect());
    }
    let mut paths = fs::read_dir(path)?
        .map(|entry| Ok(entry?.path()))
        .collect::<Result<Vec<_>, std::io::Error>>()?;
    paths.sort();
    let texts = paths
        .iter()
        .map(|path| texts_of(path))
        .collect::<Result<Vec<_>, _>>()?;
    Ok(texts.concat())
}

fn run(arguments: &[String]) -> Result<bool, Box<dyn Error>> {
    let (program, is_of_sources, arguments) = match arguments {
        [option, program, rest @ ..] if option == "--program" => (Some(program), false, rest),
        [option, rest @ ..] if option == "--sources" => (None, true, rest),
        all => (None, false, all),
    };
    let [seed, count, paths @ ..] = arguments else {
        return Err(
            "usage: fuzz [--program PROGRAM | --sources] SEED COUNT [FILE or FOLDER].."
                .into(),
        );
    };
    let (seed, count) = (seed.parse()?, count.parse()?);
    let files = paths
        .iter()
        .map(|path| texts_of(Path::new(path)))
        .collect::<Result<Vec<_>, _>>()?
        .concat();
    let totals = match program {
        Some(program) => program::compare_texts(Path::new(program), seed, count, files)?,
        None if is_of_sources => sources::compare_texts(seed, count, files),
        None => compare_texts(seed, count, files),
    };
    totals.print();
    Ok(totals.different == 0)
}

fn main() -> ExitCode {
    let arguments: Vec<String> = env::args().skip(1).collect();
    match run(&arguments) {
        Ok(true) => ExitCode::SUCCESS,
        Ok(false) => ExitCode::FAILURE,
        Err(error) => {
            eprintln!("fuzz: {error}");
            ExitCode::from(2)
        }
    }
}
