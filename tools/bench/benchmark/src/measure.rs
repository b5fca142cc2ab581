//! Passes, rows and command line of the benchmark programs.

use std::hint::black_box;
use std::path::Path;
use std::process::ExitCode;
use std::{env, fs, iter};

const USAGE: &str =
    "usage: benchmark PASSES SUITE TEXT.. | functions SUITE | once FUNCTION TEXT [BYTES]";

type Result<T> = std::result::Result<T, Box<dyn std::error::Error>>;

/// A loop over a text, with its name for callgrind.
pub type Loop = (&'static str, fn(&str) -> u64);

/// A loop of ours, and the loop of the crate that it is compared with.
pub struct Pair {
    what: &'static str,
    ours: Loop,
    theirs: Option<Loop>,
}

pub const fn pair(what: &'static str, ours: Loop, theirs: Option<Loop>) -> Pair {
    Pair { what, ours, theirs }
}

/// Declares loops in C or in Rattle over a text, with safe wrappers.
macro_rules! loops {
    ($($name:ident $symbol:ident),* $(,)?) => {
        unsafe extern "C" {
            $(fn $symbol(text: *const u8, len: usize) -> u64;)*
        }

        $(#[allow(dead_code)]
        pub fn $name(text: &str) -> u64 {
            assert!(text.len() <= u32::MAX as usize);
            // SAFETY: the text is UTF-8, like each `&str`, and its length was checked.
            unsafe { $symbol(text.as_ptr(), text.len()) }
        })*
    };
}
#[allow(unused_imports)]
pub(crate) use loops;

/// A suite: its name and its pairs.
pub type Suite = (&'static str, &'static [Pair]);

fn suite<'a>(suites: &'a [Suite], name: &str) -> Result<&'a Suite> {
    let found = suites.iter().find(|suite| suite.0 == name);
    Ok(found.ok_or_else(|| format!("no suite {name}"))?)
}

unsafe extern "C" {
    fn clock_gettime(clock: i32, time: *mut [i64; 2]) -> i32;
}

/// Returns the processor time of this thread, in nanoseconds.
fn now() -> u64 {
    const THREAD: i32 = 3;
    let mut time = [0; 2];
    // SAFETY: a `timespec` of Linux on x86-64 consists of two 64-bit integers.
    let status = unsafe { clock_gettime(THREAD, &mut time) };
    assert_eq!(status, 0, "the thread has a clock");
    time[0] as u64 * 1_000_000_000 + time[1] as u64
}

/// The times of a contender's passes, in nanoseconds, sorted.
struct Times(Vec<u64>);

impl Times {
    fn part(&self, quarters: usize) -> u64 {
        self.0[(self.0.len() - 1) * quarters / 4]
    }

    fn median(&self) -> f64 {
        self.part(2) as f64
    }

    fn milliseconds(&self) -> f64 {
        self.median() / 1e6
    }
}

/// Returns the contenders of a suite, without duplicates.
fn contenders(suite: &[Pair]) -> Vec<Loop> {
    let mut all: Vec<Loop> = Vec::new();
    let both = |pair: &Pair| iter::once(pair.ours).chain(pair.theirs);
    for one in suite.iter().flat_map(both) {
        if !all.iter().any(|other| other.0 == one.0) {
            all.push(one);
        }
    }
    all
}

/// Runs a loop on each text. Returns the time in nanoseconds, at least 1, and the sum of the results.
fn pass(call: fn(&str) -> u64, texts: &[String]) -> (u64, u64) {
    let begun = now();
    let sums = texts.iter().map(|text| black_box(call(black_box(text))));
    let sum = sums.fold(0, u64::wrapping_add);
    ((now() - begun).max(1), sum)
}

/// Runs all contenders, in rotating order, and returns their times and their sums.
fn run(contenders: &[Loop], passes: usize, texts: &[String]) -> Vec<(Times, u64)> {
    let count = contenders.len();
    let mut all: Vec<_> = contenders.iter().map(|_| (Times(Vec::new()), 0)).collect();
    for number in 0..passes {
        for turn in 0..count {
            let at = (number + turn) % count;
            let (time, sum) = pass(contenders[at].1, texts);
            all[at].0.0.push(time);
            all[at].1 = sum;
        }
    }
    for (times, _) in &mut all {
        times.0.sort_unstable();
    }
    all
}

/// Prints the rows of a text, or of the texts of a folder: suite, text, call, milliseconds of ours and of the crate's, their ratio.
fn rows(name: &str, suite: &Suite, passes: usize, texts: &[String]) -> Result<()> {
    let contenders = contenders(suite.1);
    let runs = run(&contenders, passes, texts);
    for ((function, _), (times, sum)) in contenders.iter().zip(&runs) {
        let parts = [0, 1, 2, 3].map(|part| (times.part(part) as f64 / 1e6).to_string());
        eprintln!("{name}\t{function}\t{}\t{sum}", parts.join("\t"));
    }
    let of = |function: &str| {
        let at = contenders.iter().position(|one| one.0 == function);
        &runs[at.expect("each function of a suite runs")]
    };
    for pair in suite.1 {
        let (ours, sum) = of(pair.ours.0);
        let row = format!(
            "{}\t{name}\t{}\t{:.3}",
            suite.0,
            pair.what,
            ours.milliseconds()
        );
        if *sum == 0 {
            return Err(format!("{name}: {} reads nothing", pair.ours.0).into());
        }
        let Some((function, _)) = pair.theirs else {
            println!("{row}\t-\t-");
            continue;
        };
        let (theirs, other) = of(function);
        if sum != other {
            let (ours, other) = ((pair.ours.0, sum), (function, other));
            return Err(format!("{name}: {ours:?} and {other:?} answer otherwise").into());
        }
        let ratio = theirs.median() / ours.median();
        println!("{row}\t{:.3}\t{ratio:.2}", theirs.milliseconds());
    }
    Ok(())
}

/// Returns the text of a file, or of each file of a folder.
fn texts(path: &str) -> Result<Vec<String>> {
    if !Path::new(path).is_dir() {
        return Ok(vec![fs::read_to_string(path)?]);
    }
    let entries = fs::read_dir(path)?.map(|entry| Ok(entry?.path()));
    let mut files = entries.collect::<Result<Vec<_>>>()?;
    files.sort();
    files
        .iter()
        .map(|file| Ok(fs::read_to_string(file)?))
        .collect()
}

/// Returns the start of a text, of at most `bytes` bytes; it ends with a line if it contains a line end.
fn front(text: &str, bytes: usize) -> &str {
    let front = &text[..text.floor_char_boundary(bytes)];
    match front.rfind('\n') {
        Some(end) if front.len() < text.len() => &front[..end + 1],
        _ => front,
    }
}

/// Returns the process's current or peak resident memory, in bytes, from this key of `/proc/self/status`.
fn memory(key: &str) -> Result<u64> {
    let status = fs::read_to_string("/proc/self/status")?;
    let line = status.lines().find(|line| line.starts_with(key));
    let number = line.and_then(|line| line.split_whitespace().nth(1));
    Ok(number.ok_or("no such line")?.parse::<u64>()? * 1024)
}

/// Runs a loop once. Prints the sum, the growth of the process in bytes, the length of the texts in bytes, and the milliseconds.
fn once(suites: &[Suite], function: &str, texts: &[String]) -> Result<()> {
    let all = suites.iter().flat_map(|suite| contenders(suite.1));
    let found = all.into_iter().find(|one| one.0 == function);
    let (_, call) = found.ok_or_else(|| format!("no function {function}"))?;
    let before = memory("VmRSS:")?;
    let (time, sum) = pass(call, texts);
    let grown = memory("VmHWM:")?.saturating_sub(before);
    let bytes: usize = texts.iter().map(String::len).sum();
    println!("{sum}\t{grown}\t{bytes}\t{:.3}", time as f64 / 1e6);
    Ok(())
}

fn answer(suites: &[Suite], words: &[&str]) -> Result<()> {
    match words {
        ["functions", name] => {
            for pair in suite(suites, name)?.1 {
                let theirs = pair.theirs.map_or("-", |theirs| theirs.0);
                println!("{} {theirs} {}", pair.ours.0, pair.what);
            }
            Ok(())
        }
        ["once", function, path] => once(suites, function, &texts(path)?),
        ["once", function, path, bytes] => {
            let whole = fs::read_to_string(path)?;
            once(suites, function, &[front(&whole, bytes.parse()?).into()])
        }
        [passes, name, paths @ ..] => {
            let (passes, suite) = (passes.parse::<usize>()?.max(1), suite(suites, name)?);
            for path in paths {
                let name = Path::new(path).file_stem().unwrap_or_default();
                rows(&name.to_string_lossy(), suite, passes, &texts(path)?)?;
            }
            Ok(())
        }
        _ => Err(USAGE.into()),
    }
}

/// Runs the command given by the arguments.
pub fn run_words(suites: &[Suite]) -> ExitCode {
    let words: Vec<String> = env::args().skip(1).collect();
    let words: Vec<&str> = words.iter().map(String::as_str).collect();
    match answer(suites, &words) {
        Ok(()) => ExitCode::SUCCESS,
        Err(error) => {
            eprintln!("benchmark: {error}");
            ExitCode::FAILURE
        }
    }
}
