//! What `fmt` does to files and folders: its status, output and report, and the files that it leaves. Each case runs the program in a new folder.
#![cfg(unix)]

use std::collections::BTreeMap;
use std::fs;
use std::io::Write;
use std::os::unix::fs::{FileTypeExt, MetadataExt, PermissionsExt, symlink};
use std::path::{Path, PathBuf};
use std::process::{Command, Stdio};
use std::sync::atomic::{AtomicUsize, Ordering};

/// A temporary folder, which is removed when it is dropped.
struct Folder(PathBuf);

impl Folder {
    fn new() -> Folder {
        static COUNT: AtomicUsize = AtomicUsize::new(0);
        let number = COUNT.fetch_add(1, Ordering::Relaxed);
        let name = format!("wat_tokens-{}-fmt-{number}", std::process::id());
        let path = std::env::temp_dir().join(name);
        fs::create_dir(&path).unwrap();
        Folder(path)
    }

    /// Creates an entry: a folder if its name ends in `/`, a symbolic link if its text begins with `->`, otherwise a file.
    fn add(&self, (name, text): (&str, &str)) {
        let path = self.0.join(name);
        match text.strip_prefix("->") {
            _ if name.ends_with('/') => fs::create_dir(path).unwrap(),
            Some(target) => symlink(target, path).unwrap(),
            None => fs::write(path, text).unwrap(),
        }
    }

    fn read(&self, name: &str) -> String {
        fs::read_to_string(self.0.join(name)).unwrap()
    }

    /// Runs the program, and returns its status, output and report.
    fn run(&self, words: &[&str], input: &str) -> (i32, String, String) {
        let mut running = Command::new(env!("CARGO_BIN_EXE_wat_tokens"))
            .args(words)
            .current_dir(&self.0)
            .stdin(Stdio::piped())
            .stdout(Stdio::piped())
            .stderr(Stdio::piped())
            .spawn()
            .unwrap();
        // A write fails if the program ends without reading its input.
        let _ = running.stdin.take().unwrap().write_all(input.as_bytes());
        let done = running.wait_with_output().unwrap();
        let text = |bytes| String::from_utf8(bytes).unwrap();
        let status = done.status.code().unwrap();
        (status, text(done.stdout), text(done.stderr))
    }
}

impl Drop for Folder {
    fn drop(&mut self) {
        let _ = fs::remove_dir_all(&self.0);
    }
}

/// Adds the names and the texts of all entries below a folder; the text of a link begins with `->`.
fn gather(top: &Path, folder: &Path, entries: &mut BTreeMap<String, String>) {
    for entry in fs::read_dir(folder).unwrap() {
        let path = entry.unwrap().path();
        let name = path.strip_prefix(top).unwrap().to_str().unwrap().to_owned();
        let kind = path.symlink_metadata().unwrap().file_type();
        if kind.is_symlink() {
            let target = fs::read_link(&path).unwrap();
            entries.insert(name, format!("->{}", target.display()));
        } else if kind.is_dir() {
            entries.insert(format!("{name}/"), String::new());
            gather(top, &path, entries);
        } else if !kind.is_fifo() {
            entries.insert(name, fs::read_to_string(&path).unwrap());
        }
    }
}

type Entries = &'static [(&'static str, &'static str)];

/// A run over the files of its test: the arguments, the status, the output, the report, and the files with another text after it.
struct Case {
    words: &'static [&'static str],
    status: i32,
    output: &'static str,
    report: &'static str,
    written: Entries,
}

const fn case(
    words: &'static [&'static str],
    status: i32,
    output: &'static str,
    report: &'static str,
    written: Entries,
) -> Case {
    Case {
        words,
        status,
        output,
        report,
        written,
    }
}

/// Runs each case over new files, and compares the result and all entries.
fn check(files: Entries, input: &str, cases: &[Case]) {
    for case in cases {
        let folder = Folder::new();
        for file in files {
            folder.add(*file);
        }
        let result = folder.run(case.words, input);
        let wanted = (case.status, case.output.into(), case.report.into());
        assert_eq!(result, wanted, "{:?}", case.words);
        let mut entries = BTreeMap::new();
        gather(&folder.0, &folder.0, &mut entries);
        let own = |(name, text): &(&str, &str)| ((*name).to_owned(), (*text).to_owned());
        let mut wanted: BTreeMap<String, String> = files.iter().map(own).collect();
        wanted.extend(case.written.iter().map(own));
        assert_eq!(entries, wanted, "{:?}", case.words);
    }
}

const FAULT: &str =
    "unexpected end-of-file\n     --> faulty:1:4\n      |\n    1 | a \"\n      |    ^\n";
const BYTE_FAULT: &str =
    "unexpected end-of-file\n     --> <stdin>:1:4\n      |\n    1 | a \"\n      |    ^\n";
const BUSY: &str =
    "wat_tokens: busy: busy.wat_tokens is there already: remove it, or another run is at work\n";

/// Files with each kind of text, a link, and a temporary file that is there already.
const FILES: Entries = &[
    ("messy", "( a\n b )\n"),
    ("neat", "(a\n  b)\n"),
    ("faulty", "a \""),
    ("-", "( dash )"),
    ("link", "->messy"),
    ("busy", "( a )"),
    ("busy.wat_tokens", ""),
];

const MISSING: &str = "wat_tokens: missing: open failed: no such file or directory\n";

const NO_FILE: &str = "wat_tokens: <stdin>: no file to write\n";

/// Runs over these files, with a text on standard input.
const CASES: &[Case] = &[
    case(&["fmt"], 0, "(in)\n", "", &[]),
    case(&["fmt", "-"], 0, "(in)\n", "", &[]),
    case(&["fmt", "./-"], 0, "(dash)\n", "", &[]),
    case(
        &["fmt", "messy", "neat"],
        0,
        "(a\n  b)\n(a\n  b)\n",
        "",
        &[],
    ),
    case(&["fmt", "faulty"], 1, "", FAULT, &[]),
    case(&["fmt", "--check"], 1, "<stdin>\n", "", &[]),
    case(&["fmt", "--check", "neat", "messy"], 1, "messy\n", "", &[]),
    case(&["fmt", "--check", "neat"], 0, "", "", &[]),
    case(
        &["fmt", "--check", "missing", "messy"],
        2,
        "messy\n",
        MISSING,
        &[],
    ),
    case(&["fmt", "--check", "faulty"], 1, "", FAULT, &[]),
    case(&["fmt", "--write"], 2, "", NO_FILE, &[]),
    case(&["fmt", "--write", "-"], 2, "", NO_FILE, &[]),
    case(
        &["fmt", "--write", "link", "neat", "./-"],
        0,
        "",
        "",
        &[("messy", "(a\n  b)\n"), ("-", "(dash)\n")],
    ),
    case(&["fmt", "--write", "busy"], 2, "", BUSY, &[]),
    case(
        &["fmt", "--write", "faulty", "messy"],
        1,
        "",
        FAULT,
        &[("messy", "(a\n  b)\n")],
    ),
    case(&["fmt", "--diff", "faulty"], 1, "", FAULT, &[]),
    case(&["fmt", "--diff", "neat"], 0, "", "", &[]),
    case(&["fmt", "--diff", "missing"], 2, "", MISSING, &[]),
];

#[test]
fn files_are_printed_checked_or_written() {
    check(FILES, "( in )\n", CASES);
    let cases = [case(&["fmt", "--check"], 1, "", BYTE_FAULT, &[])];
    check(&[], "a \"", &cases);
    // `-` is standard input, even if a folder has this name.
    let cases = [case(&["fmt", "-"], 0, "(in)\n", "", &[])];
    check(&[("-/", "")], "( in )\n", &cases);
}

/// A folder with texts, other files, and links into it and out of it.
const TREE: Entries = &[
    ("tree/", ""),
    ("tree/a.wat/", ""),
    ("tree/b/", ""),
    ("tree/.c/", ""),
    ("tree/none/", ""),
    ("tree/.c/e.wat", "( e )"),
    ("tree/a.wast", "( a )"),
    ("tree/a.wat/in.wat", "( in )"),
    ("tree/b/x.wat", "( x )"),
    ("tree/b/y.wast", "a \""),
    ("tree/z.wat", "( z )"),
    ("tree/a.txt", "( a )"),
    ("tree/wat", "( a )"),
    ("outside.wat", "( o )"),
    ("tree/link.wat", "->../outside.wat"),
    ("tree/b/around", "->../b"),
    ("tree/b.wat", "->b"),
    ("tree/.lock.wat", "->nowhere"),
    ("to_tree", "->tree"),
];

const TREE_FAULT: &str =
    "unexpected end-of-file\n     --> tree/b/y.wast:1:4\n      |\n    1 | a \"\n      |    ^\n";

const LISTED: &str = "tree/.c/e.wat\ntree/a.wast\ntree/a.wat/in.wat\ntree/b/x.wat\ntree/z.wat\n";

const WRITTEN: Entries = &[
    ("tree/.c/e.wat", "(e)\n"),
    ("tree/a.wast", "(a)\n"),
    ("tree/a.wat/in.wat", "(in)\n"),
    ("tree/b/x.wat", "(x)\n"),
    ("tree/z.wat", "(z)\n"),
];

/// Runs over the folder, and over paths below it.
const TREE_CASES: &[Case] = &[
    case(&["fmt", "--check", "tree"], 1, LISTED, TREE_FAULT, &[]),
    case(&["fmt", "--check", "tree/"], 1, LISTED, TREE_FAULT, &[]),
    case(
        &["fmt", "--check", "to_tree/.c", "tree/b.wat/x.wat"],
        1,
        "to_tree/.c/e.wat\ntree/b.wat/x.wat\n",
        "",
        &[],
    ),
    case(&["fmt", "--check", "tree/none"], 0, "", "", &[]),
    case(
        &["fmt", "tree"],
        1,
        "(e)\n(a)\n(in)\n(x)\n(z)\n",
        TREE_FAULT,
        &[],
    ),
    case(&["fmt", "--write", "tree"], 1, "", TREE_FAULT, WRITTEN),
];

#[test]
fn the_texts_below_a_folder_are_formatted_in_order() {
    check(TREE, "", TREE_CASES);
}

/// Texts, and the hunks from them to their formatted texts.
const DIFFS: &[(&str, &str)] = &[
    ("( a )\n", "@@ -1 +1 @@\n-( a )\n+(a)\n"),
    (
        "( a )",
        "@@ -1 +1 @@\n-( a )\n\\ No newline at end of file\n+(a)\n",
    ),
    // A tab or a carriage return that goes, before a line that stays.
    ("(\ta )\nb\n", "@@ -1,2 +1,2 @@\n-(\ta )\n+(a)\n b\n"),
    ("( a )\r\nb\n", "@@ -1,2 +1,2 @@\n-( a )\r\n+(a)\n b\n"),
    (
        "(\ta\n\r\nb\t)\n",
        "@@ -1,3 +1,3 @@\n-(\ta\n-\r\n-b\t)\n+(a\n+\n+  b)\n",
    ),
    // A line that becomes two, as a carriage return ends it.
    (
        "( a\r b )\nd\n",
        "@@ -1,2 +1,3 @@\n-( a\r b )\n+(a\n+  b)\n d\n",
    ),
    // A line that becomes two, of which the first is blank.
    ("a\n\rb\n", "@@ -1,2 +1,3 @@\n a\n-\rb\n+\n+b\n"),
    // Changes six lines apart belong to one hunk, and changes seven apart to two.
    (
        "0\n1\n2\n3\n( a )\n1\n2\n3\n4\n5\n6\n( b )\n1\n2\n3\n4\n5\n6\n7\n( c )\n1\n2\n3\n4\n",
        "@@ -2,14 +2,14 @@\n 1\n 2\n 3\n-( a )\n+(a)\n 1\n 2\n 3\n 4\n 5\n 6\n-( b )\n+(b)\n 1\n 2\n 3\n\
         @@ -17,7 +17,7 @@\n 5\n 6\n 7\n-( c )\n+(c)\n 1\n 2\n 3\n",
    ),
    // A blank line as the first line of the context.
    (
        "0\n\n2\n3\n( a )\n",
        "@@ -2,4 +2,4 @@\n \n 2\n 3\n-( a )\n+(a)\n",
    ),
    // Blank lines that go.
    ("1\n\n\n\n2\n", "@@ -1,5 +1,3 @@\n 1\n \n-\n-\n 2\n"),
    (
        "\n\n\n b\n \n\n\na\n",
        "@@ -1,8 +1,3 @@\n-\n-\n-\n- b\n- \n-\n-\n+b\n+\n a\n",
    ),
    // Lines that become one.
    (
        "(\n\n(\na)\n  b)\n1\n",
        "@@ -1,6 +1,3 @@\n-(\n-\n-(\n-a)\n+((a)\n   b)\n 1\n",
    ),
    // A hunk without a new line.
    ("\n \n", "@@ -1,2 +0,0 @@\n-\n- \n"),
];

#[test]
fn a_diff_has_the_lines_that_change_with_three_around_them() {
    let folder = Folder::new();
    for name in ["in", "a name"] {
        let end = if name.contains(' ') { "\t" } else { "" };
        for (text, hunks) in DIFFS {
            folder.add((name, text));
            let wanted = format!("--- {name}{end}\n+++ {name}{end}\n{hunks}");
            let result = folder.run(&["fmt", "--diff", name], "");
            assert_eq!(result, (1, wanted, String::new()), "{text:?}");
            assert_eq!(folder.read(name), *text);
        }
    }
}

/// Writes the unified diff of a text whose lines are changed in each second group of ten, and applies it by hand.
#[test]
fn a_long_diff_has_all_changes() {
    let line = |number: usize| match number % 20 {
        0..10 => format!("( a{number} )\n"),
        _ => format!("(a{number})\n"),
    };
    let text: String = (0..4000).map(line).collect();
    let folder = Folder::new();
    folder.add(("in", &text));
    let (status, diff, report) = folder.run(&["fmt", "--diff", "in"], "");
    assert_eq!((status, report.as_str()), (1, ""));
    let (_, layout, _) = folder.run(&["fmt", "in"], "");
    let lines = |mark: char| {
        diff.lines()
            .skip(2)
            .filter(move |line| line.starts_with(mark))
    };
    let removed: Vec<&str> = lines('-').map(|line| &line[1..]).collect();
    let added: Vec<&str> = lines('+').map(|line| &line[1..]).collect();
    let changed = |lines: &str, others: &str| {
        let pairs = lines.lines().zip(others.lines());
        let changed = pairs.filter(|(one, other)| one != other);
        changed.map(|(one, _)| one.to_owned()).collect::<Vec<_>>()
    };
    assert_eq!(removed, changed(&text, &layout));
    assert_eq!(added, changed(&layout, &text));
    assert_eq!(removed.len(), 2000);
    assert_eq!(lines('@').count(), 200);
    assert_eq!(lines(' ').count(), 199 * 6 + 3);
}

#[test]
fn a_text_of_more_than_a_megabyte_is_written_whole() {
    let text = "( a )\n".repeat(300_000);
    let layout = "(a)\n".repeat(300_000);
    let folder = Folder::new();
    folder.add(("in", &text));
    let result = folder.run(&["fmt", "--check", "in"], "");
    assert_eq!(result, (1, "in\n".into(), String::new()));
    assert!(folder.read("in") == text, "--check writes nothing");
    let result = folder.run(&["fmt", "--write", "in"], "");
    assert_eq!(result, (0, String::new(), String::new()));
    assert!(folder.read("in") == layout, "the formatted text");
}

#[test]
fn each_of_two_thousand_files_is_formatted() {
    let folder = Folder::new();
    folder.add(("neat", "(a)\n"));
    folder.add(("messy", "( a )\n"));
    let mut words = vec!["fmt", "--check"];
    words.extend(std::iter::repeat_n("neat", 2000));
    words.push("messy");
    let result = folder.run(&words, "");
    assert_eq!(result, (1, "messy\n".into(), String::new()));
}

#[test]
fn a_written_file_keeps_its_permissions_and_a_neat_one_its_time() {
    let folder = Folder::new();
    folder.add(("messy", "( a )\n"));
    folder.add(("neat", "(a)\n"));
    let path = |name: &str| folder.0.join(name);
    let mode = |name: &str| path(name).metadata().unwrap().permissions().mode() & 0o7777;
    fs::set_permissions(path("messy"), fs::Permissions::from_mode(0o640)).unwrap();
    let before = path("neat").metadata().unwrap();
    let result = folder.run(&["fmt", "--write", "messy", "neat"], "");
    assert_eq!(result, (0, String::new(), String::new()));
    assert_eq!(
        (folder.read("messy"), mode("messy")),
        ("(a)\n".into(), 0o640)
    );
    let after = path("neat").metadata().unwrap();
    assert_eq!(before.ino(), after.ino());

    folder.add(("fixed", "( a )"));
    fs::set_permissions(path("fixed"), fs::Permissions::from_mode(0o444)).unwrap();
    let result = folder.run(&["fmt", "--write", "fixed"], "");
    let report = "wat_tokens: fixed: read-only, left as it is\n";
    assert_eq!(result, (2, String::new(), report.into()));
    assert_eq!(
        (folder.read("fixed"), mode("fixed")),
        ("( a )".into(), 0o444)
    );
    assert!(!path("fixed.wat_tokens").exists());
}

#[test]
fn a_temporary_file_that_can_not_be_written_leaves_the_file() {
    let folder = Folder::new();
    let name = "n".repeat(250);
    folder.add((&name, "( a )"));
    let result = folder.run(&["fmt", "--write", &name], "");
    let report =
        format!("wat_tokens: {name}: {name}.wat_tokens: open failed: file name too long\n");
    assert_eq!(result, (2, String::new(), report));
    assert_eq!(folder.read(&name), "( a )");

    // The formatted text exceeds the limit of 512 bytes for a file.
    let text = "(a\n".repeat(100);
    folder.add(("deep", &text));
    let program = env!("CARGO_BIN_EXE_wat_tokens");
    let limited = "trap '' XFSZ; ulimit -f 1; exec \"$0\" fmt --write deep";
    let done = Command::new("sh")
        .args(["-c", limited, program])
        .current_dir(&folder.0)
        .output()
        .unwrap();
    assert_eq!(done.status.code(), Some(2));
    let report = String::from_utf8(done.stderr).unwrap();
    assert_eq!(report, "wat_tokens: deep: write failed: file too large\n");
    assert_eq!(folder.read("deep"), text);
    assert!(!folder.0.join("deep.wat_tokens").exists());
}

/// Limits the process to the five descriptors of its streams and of their duplicates.
#[test]
fn a_file_that_can_not_be_opened_is_reported() {
    let folder = Folder::new();
    folder.add(("messy", "( a )"));
    let limited = "ulimit -n 5; exec \"$0\" fmt --write messy";
    let done = Command::new("sh")
        .args(["-c", limited, env!("CARGO_BIN_EXE_wat_tokens")])
        .current_dir(&folder.0)
        .output()
        .unwrap();
    assert_eq!(done.status.code(), Some(2));
    let report = String::from_utf8(done.stderr).unwrap();
    let wanted = "wat_tokens: messy: open failed: too many open files\n";
    assert_eq!(report, wanted);
    assert_eq!(folder.read("messy"), "( a )");
}

#[test]
fn a_pipe_that_nobody_reads_is_not_an_error() {
    let folder = Folder::new();
    folder.add(("messy", "( a )"));
    for mode in [&["fmt"][..], &["fmt", "--check"], &["fmt", "--diff"]] {
        let (reader, writer) = std::io::pipe().unwrap();
        drop(reader);
        let done = Command::new(env!("CARGO_BIN_EXE_wat_tokens"))
            .args(mode)
            .arg("messy")
            .current_dir(&folder.0)
            .stdout(writer)
            .output()
            .unwrap();
        let report = String::from_utf8(done.stderr).unwrap();
        assert_eq!(
            (done.status.code(), report.as_str()),
            (Some(0), ""),
            "{mode:?}"
        );
    }
}
