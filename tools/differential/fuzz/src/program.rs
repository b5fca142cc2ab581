//! Compares the program `wat_tokens` with the crates: its lists of raw and of significant tokens, and the errors that it prints.
use crate::random::Random;
use crate::report::Answers;
use crate::texts::{OF_SAME_WIDTH, Texts};
use crate::{MOST_DIFFERENCES, Totals};
use std::error::Error;
use std::io::Write as _;
use std::ops::Range;
use std::path::{Path, PathBuf};
use std::process::{Command, Stdio};
use std::{env, fs, process};
use wat_lex::proved::lexer::{Lexer, Token};
use wat_lex::shim::alloc::Global;
use wat_parser::proved::parser::{Cursor, ParseBuffer, Parser};

/// The number of texts that one run of the program gets, each as a file.
const BATCH: usize = 500;

/// The names that `sig` registers.
const NAMES: [&str; 3] = ["name", "custom", "b"];

type Outcome<T> = Result<T, Box<dyn Error>>;

/// The options of the program for a batch of texts.
#[derive(Clone, Copy)]
struct Question {
    allow: bool,
    /// Whether only the tokens that are significant under `NAMES` are listed.
    is_filtered: bool,
}

/// Compares the program's output for random texts.
pub fn compare_texts(program: &Path, seed: u64, count: u64, files: Vec<String>) -> Outcome<Totals> {
    let folder = env::temp_dir().join(format!("fuzz.{}", process::id()));
    fs::create_dir(&folder)?;
    let run = Run {
        program: program.canonicalize()?,
        folder,
    };
    let compared = run.compare(seed, count, files);
    fs::remove_dir_all(&run.folder)?;
    compared
}

struct Run {
    program: PathBuf,
    folder: PathBuf,
}

impl Run {
    fn compare(&self, seed: u64, count: u64, files: Vec<String>) -> Outcome<Totals> {
        let mut totals = Totals::default();
        let mut random = Random::new(seed);
        let mut texts = Texts::new(Random::new(random.next()), files, OF_SAME_WIDTH);
        while totals.texts < count && totals.different < MOST_DIFFERENCES {
            let size = BATCH.min((count - totals.texts) as usize);
            let batch: Vec<String> = (0..size).map(|_| texts.next()).collect();
            for (number, text) in batch.iter().enumerate() {
                fs::write(self.folder.join(number.to_string()), text)?;
            }
            let question = Question {
                allow: random.is_one_in(2),
                is_filtered: random.is_one_in(2),
            };
            self.compare_batch(&mut totals, &batch, question)?;
        }
        Ok(totals)
    }

    /// Runs the program on all texts of a batch at once, and on each alone if the output differs. Runs it on the first text also as standard input.
    fn compare_batch(
        &self,
        totals: &mut Totals,
        batch: &[String],
        question: Question,
    ) -> Outcome<()> {
        let each: Vec<Printed> = batch
            .iter()
            .enumerate()
            .map(|(number, text)| Printed::of(text, question, Some(number)))
            .collect();
        let is_same = self.printed_of_files(0..batch.len(), question)? == joined(&each);
        for (number, (text, wanted)) in batch.iter().zip(&each).enumerate() {
            let wanted = wanted.answers();
            if !is_same {
                let given = self.printed_of_files(number..number + 1, question)?;
                totals.compare(text, "program", &wanted, &given.answers());
            }
            totals.add(&wanted);
        }
        let wanted = Printed::of(&batch[0], question, None).answers();
        let given = self.printed_of_input(&batch[0], question)?.answers();
        totals.compare(&batch[0], "program", &wanted, &given);
        Ok(())
    }

    fn printed_of_files(&self, numbers: Range<usize>, question: Question) -> Outcome<Printed> {
        let names = numbers.map(name_of);
        let mut command = self.command(question);
        if question.is_filtered {
            command.args(names.flat_map(|name| ["--file".to_owned(), name]));
            command.arg("sig").args(NAMES);
        } else {
            command.arg("list").args(names);
        }
        printed(&mut command, "")
    }

    fn printed_of_input(&self, text: &str, question: Question) -> Outcome<Printed> {
        let mut command = self.command(question);
        if question.is_filtered {
            command.arg("sig").args(NAMES);
        }
        printed(&mut command, text)
    }

    fn command(&self, question: Question) -> Command {
        let mut command = Command::new(&self.program);
        command.current_dir(&self.folder);
        command.args(question.allow.then_some("--allow-confusing"));
        command
    }
}

fn name_of(number: usize) -> String {
    format!("./{number}")
}

/// Runs the command on an input, and returns its output.
fn printed(command: &mut Command, input: &str) -> Outcome<Printed> {
    command.stdin(Stdio::piped());
    command.stdout(Stdio::piped()).stderr(Stdio::piped());
    let mut child = command.spawn()?;
    let mut stdin = child.stdin.take().ok_or("no standard input")?;
    stdin.write_all(input.as_bytes())?;
    drop(stdin);
    let ended = child.wait_with_output()?;
    Ok(Printed {
        list: String::from_utf8(ended.stdout)?,
        fault: String::from_utf8(ended.stderr)?,
        status: ended.status.code(),
        tokens: 0,
    })
}

/// The output of the program for one or more texts.
#[derive(Default)]
struct Printed {
    list: String,
    fault: String,
    status: Option<i32>,
    tokens: u64,
}

impl PartialEq for Printed {
    fn eq(&self, other: &Printed) -> bool {
        (&self.list, &self.fault, self.status) == (&other.list, &other.fault, other.status)
    }
}

/// Concatenates the output for several texts. The status is the greatest.
fn joined(each: &[Printed]) -> Printed {
    Printed {
        list: each.iter().map(|printed| printed.list.as_str()).collect(),
        fault: each.iter().map(|printed| printed.fault.as_str()).collect(),
        status: each.iter().filter_map(|printed| printed.status).max(),
        tokens: 0,
    }
}

impl Printed {
    /// Returns the expected output for a text, which is standard input or the file with this number.
    fn of(text: &str, question: Question, number: Option<usize>) -> Printed {
        let mut printed = Printed {
            status: Some(0),
            ..Printed::default()
        };
        let mut lexer = Lexer::new(text);
        lexer.allow_confusing_unicode(question.allow);
        let ended = if question.is_filtered {
            printed.filter(lexer)
        } else {
            printed.lex(&lexer)
        };
        if let Err(error) = ended {
            printed.status = Some(1);
            printed.fault = match number {
                Some(number) => named(&error, &name_of(number)),
                None => format!("{error}\n"),
            };
        }
        printed
    }

    fn lex(&mut self, lexer: &Lexer<'_>) -> Result<(), wat_lex::Error> {
        for token in lexer.iter(Global, 0) {
            self.token(token?);
        }
        Ok(())
    }

    fn filter(&mut self, lexer: Lexer<'_>) -> Result<(), wat_lex::Error> {
        let buffer = ParseBuffer::new_with_lexer(Global, lexer)?;
        let mut parser = buffer.parser();
        for name in NAMES {
            parser.register_annotation(name)?;
        }
        while let Some(token) = take(&mut parser)? {
            self.token(token);
        }
        Ok(())
    }

    fn token(&mut self, token: Token) {
        self.tokens += 1;
        let end = token.offset + token.len as usize;
        self.list += &format!("{}..{end} {}\n", token.offset, token.kind.name());
    }

    fn answers(&self) -> Answers {
        Answers {
            text: format!("{}{}status {:?}\n", self.list, self.fault, self.status),
            tokens: self.tokens,
            faults: u64::from(self.status != Some(0)),
            others: 0,
        }
    }
}

fn take(parser: &mut Parser<'_>) -> Result<Option<Token>, wat_lex::proved::error::Error> {
    parser.step(|cursor: Cursor<'_, '_>| {
        Ok(match cursor.any()? {
            Some((token, next)) => (Some(token), next),
            None => (None, cursor),
        })
    })
}

/// Returns the expected report of an error in a file.
fn named(error: &wat_lex::Error, name: &str) -> String {
    let (message, printed) = (error.message(), error.to_string());
    let place = &printed[message.len()..];
    let is_placed = place.starts_with("\n     --> <anon>") || place.starts_with(" at <anon>");
    let placed = if is_placed {
        message.clone() + &place.replacen("<anon>", name, 1)
    } else {
        format!("{name}: {printed}")
    };
    let mut shown: String = placed.chars().map(visible).collect();
    if message == "unexpected character '\\u{feff}'" && error.span().offset() == 0 {
        shown += "\nthe text begins with a byte order mark, which has to go";
    }
    shown + "\n"
}

/// Returns the control picture of a control character, except of a line feed.
fn visible(character: char) -> char {
    match character {
        '\n' => '\n',
        '\0'..='\u{1f}' => char::from_u32(0x2400 + character as u32).expect("a picture"),
        '\u{7f}' => '\u{2421}',
        '\u{80}'..='\u{9f}' => '\u{fffd}',
        other => other,
    }
}
