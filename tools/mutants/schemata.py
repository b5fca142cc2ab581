"""Mutant schemata: a copy of the Rust packages in which each function selects one of its mutants at run time, for mutate.py.

The copy has a package `mutant`. The body of a mutated function becomes `match ::mutant::at(FIRST, COUNT) { 1 => .., 2 => .., _ => BODY }`; the
environment variable WAT_MUTANT has the number of the mutant that is active in the process and in its children. With WAT_MUTANT_TRACE, the name of a
folder, each process writes the functions that it called, or makes a folder if it can write no file.
"""
import bisect
import collections
import json
import os
import pathlib
import re
import shutil
import subprocess

ROOT = pathlib.Path(__file__).resolve().parents[2]
ROUNDS = 12
# Lints that would report a mutant that panics wherever it runs, which is to be killed by a test.
LINTS = "-Awarnings -Aunconditional_panic -Aarithmetic_overflow"
# Without optimization a function would need the stack of all its mutants. Overflow checks and debug assertions stay.
PROFILE = "\n[profile.dev]\nopt-level = 1\ndebug = false\nincremental = true\n"
# The programs of tests are compiled much faster without it.
WRAPPER = """#!/bin/sh
case " $* " in
    *" --test "*) exec "$@" -C opt-level=0 ;;
esac
exec "$@"
"""
SWITCH = """//! The switch of mutant schemata.
use std::ffi::{CStr, c_char, c_int};
use std::sync::atomic::{AtomicU8, AtomicU32, Ordering::Relaxed};

const UNREAD: u32 = u32::MAX;
const TRACED: u32 = u32::MAX - 1;
static ACTIVE: AtomicU32 = AtomicU32::new(UNREAD);
static CALLED: [AtomicU8; COUNT] = [const { AtomicU8::new(0) }; COUNT];

unsafe extern "C" {
    fn getenv(name: *const c_char) -> *const c_char;
    fn atexit(call: extern "C" fn()) -> c_int;
}

/// Returns which of the `count` mutants from `first` on is active, counted from 1, or 0 if none is. It does not allocate.
#[inline]
pub fn at(first: u32, count: u32) -> u32 {
    let active = ACTIVE.load(Relaxed);
    if active >= TRACED {
        return traced(active, first, count);
    }
    chosen(active, first, count)
}

fn chosen(active: u32, first: u32, count: u32) -> u32 {
    match active.wrapping_sub(first) {
        index if index < count => index + 1,
        _ => 0,
    }
}

#[cold]
fn traced(active: u32, first: u32, count: u32) -> u32 {
    let active = if active == UNREAD { read() } else { active };
    if active != TRACED {
        return chosen(active, first, count);
    }
    CALLED[first as usize].store(1, Relaxed);
    0
}

#[cold]
fn read() -> u32 {
    let number = unsafe {
        if !getenv(c"WAT_MUTANT_TRACE".as_ptr()).is_null() {
            if ACTIVE.swap(TRACED, Relaxed) != TRACED {
                atexit(write);
            }
            return TRACED;
        }
        let value = getenv(c"WAT_MUTANT".as_ptr());
        if value.is_null() { 0 } else { number_of(CStr::from_ptr(value).to_bytes()) }
    };
    ACTIVE.store(number, Relaxed);
    number
}

fn number_of(digits: &[u8]) -> u32 {
    digits.iter().fold(0, |number, digit| number * 10 + u32::from(digit - b'0'))
}

extern "C" fn write() {
    let Some(folder) = std::env::var_os("WAT_MUTANT_TRACE") else { return };
    let called: Vec<String> = (0..COUNT).filter(|at| CALLED[*at].load(Relaxed) != 0).map(|at| at.to_string()).collect();
    let path = std::path::Path::new(&folder).join(std::process::id().to_string());
    if std::fs::write(&path, called.join("\\n")).is_err() {
        let _ = std::fs::create_dir(path.with_extension("unknown"));
    }
}
"""


class Broken(Exception):
    """The copy does not compile even without mutants, or an error is in no mutant."""


def put(path, text):
    """Writes a file, unless it has this text: what was built from it stays valid then."""
    if not path.exists() or path.read_text(encoding="utf-8") != text:
        path.parent.mkdir(parents=True, exist_ok=True)
        path.write_text(text, encoding="utf-8")


def copy(folder, mutated=()):
    """Copies the Rust packages without the mutated files, which `File` writes, and links everything else that their tests read."""
    names = subprocess.run(["git", "ls-files", "-co", "--exclude-standard", "rust"], cwd=ROOT, stdout=subprocess.PIPE, text=True, check=True)
    wanted = {name for name in names.stdout.splitlines() if (ROOT / name).is_file()}
    for path in (folder / "rust").glob("wat-*/**/*"):
        if path.is_file() and str(path.relative_to(folder)) not in wanted:
            path.unlink()
    for name in wanted - set(mutated):
        put(folder / name, (ROOT / name).read_text(encoding="utf-8"))
    for path in ROOT.iterdir():
        link = folder / path.name
        if path.name not in ("rust", "target", ".git") and not link.is_symlink() and not link.exists():
            link.symlink_to(path)


def add_switch(folder, count):
    """Adds the package `mutant`, and makes each package depend on it."""
    switch = folder / "rust/mutant"
    put(switch / "Cargo.toml", '[package]\nname = "mutant"\nversion = "0.0.0"\nedition = "2024"\n')
    put(switch / "src/lib.rs", SWITCH + f"\nconst COUNT: usize = {count + 2};\n")
    for manifest in (folder / "rust").glob("wat-*/Cargo.toml"):
        text = manifest.read_text()
        manifest.write_text(text.replace("[dependencies]\n", '[dependencies]\nmutant = { path = "../mutant" }\n', 1))
    top = folder / "rust/Cargo.toml"
    top.write_text(top.read_text().replace('members = [', 'members = ["mutant", ') + PROFILE)


class File:
    """A file of the copy with its mutants, by number, and the lines that each occupies in it."""

    def __init__(self, path, text, functions):
        self.path, self.text, self.functions = path, text, functions
        self.starts, self.numbers = [], []

    def write(self, target, dropped):
        """Writes the file with the switch of each function; `functions` are the offsets of a body and its mutants with their numbers."""
        self.starts, self.numbers = [0], [None]
        out, at, line = [], 0, 1
        for start, end, mutants in self.functions:
            kept = [(number, mutant) for number, mutant in mutants if number not in dropped]
            if not kept:
                continue
            out.append(self.text[at:start])
            line += self.text.count("\n", at, start)
            body = self.text[start:end]
            first, count = mutants[0][0], len(mutants)
            out.append(f"{{ match ::mutant::at({first}, {count}) {{\n")
            line += 1
            for number, mutant in kept:
                arm = f"{number - first + 1} => {{ {self.mutated(start, end, mutant)} }}\n"
                self.starts.append(line)
                self.numbers.append(number)
                out.append(arm)
                line += arm.count("\n")
            self.starts.append(line)
            self.numbers.append(None)
            out.append(f"_ => {body} }} }}")
            line += body.count("\n")
            at = end
        out.append(self.text[at:])
        put(target, self.without_inline("".join(out)))

    @staticmethod
    def without_inline(text):
        """Removes the attributes `inline`, as functions with all their mutants are long."""
        return re.sub(r"#\[inline(\(always\))?\]", "", text)

    def mutated(self, start, end, mutant):
        return self.text[start : mutant.start] + mutant.new + self.text[mutant.end : end]

    def number_at(self, line):
        return self.numbers[bisect.bisect_right(self.starts, line) - 1]


def spans(message):
    """Yields the spans of a diagnostic with those of the macros that expand to them, and those of its children."""
    for span in message.get("spans", []):
        while span:
            yield span
            span = (span.get("expansion") or {}).get("span")
    for child in message.get("children", []):
        yield from spans(child)


def environment(folder, **more):
    """Returns the environment of cargo, which finds the wrapper of rustc in the folder."""
    wrapper = folder / "rustc.sh"
    put(wrapper, WRAPPER)
    wrapper.chmod(0o755)
    words = {"CARGO_TARGET_DIR": str(folder / "target"), "RUSTC_WORKSPACE_WRAPPER": str(wrapper), "RUSTFLAGS": LINTS, "CARGO_TERM_COLOR": "never"}
    return os.environ | words | more


def cargo(folder, *words):
    """Runs cargo in the copy. Returns its status and its messages."""
    command = ["cargo", *words, "--message-format=json"]
    done = subprocess.run(command, cwd=folder / "rust", env=environment(folder), capture_output=True, text=True, check=False)
    return done, [json.loads(line) for line in done.stdout.splitlines() if line.startswith("{")]


def errors(messages):
    return [it["message"] for it in messages if it.get("reason") == "compiler-message" and it["message"]["level"].startswith("error")]


def blamed(error, files, folder):
    """Returns the numbers of the mutants in which an error is: those of its primary spans, otherwise those of all spans."""
    every = list(spans(error))
    for chosen in ([it for it in every if it.get("is_primary")], every):
        found = set()
        for span in chosen:
            path = pathlib.Path(folder / "rust", span["file_name"]).resolve()
            file = files.get(path)
            found |= {file.number_at(line) for line in range(span["line_start"], span["line_end"] + 1)} - {None} if file else set()
        if found:
            return found
    return set()


def compile_all(folder, files, options, report, known):
    """Drops mutants that do not compile until all others do, the known ones first. Returns the numbers of the dropped ones."""
    dropped = set(known)
    for words in (["check", "--keep-going"], ["check", "--keep-going", "--tests"]):
        for number in range(ROUNDS):
            new = compile_once(folder, files, [*words, "--offline", *options], dropped)
            report(f"{' '.join(words)}, round {number + 1}: {len(new)} mutants do not compile")
            dropped |= new
            if not new:
                break
        else:
            raise Broken("mutants are left that do not compile")
    return dropped


def compile_once(folder, files, words, dropped):
    """Writes and checks the files without the dropped mutants. Returns the numbers of others that do not compile."""
    for path, file in files.items():
        file.write(path, dropped)
    done, messages = cargo(folder, *words)
    found = errors(messages)
    new = set().union(*(blamed(it, files, folder) for it in found)) - dropped if found else set()
    if done.returncode and not new:
        raise Broken("\n".join([done.stderr[-2000:], *(it["rendered"] for it in found[:3])]))
    return new


def build(folder, options):
    """Builds the tests. Returns the paths of the executables by package, kind and name, as a program may have its library's name."""
    done, messages = cargo(folder, "test", "--no-run", "--offline", *options)
    if done.returncode:
        raise Broken(done.stderr[-4000:] + "\n".join(it["rendered"] for it in errors(messages)[:5]))
    found = {}
    for it in messages:
        if it.get("reason") == "compiler-artifact" and it.get("executable") and it["profile"]["test"]:
            package = pathlib.Path(it["manifest_path"]).parent
            target = it["target"]
            found[f"{package.name}::{target['kind'][0]}::{target['name']}"] = (pathlib.Path(it["executable"]), package)
    return found


def files_of(folder, texts, mutants):
    """Returns the files of the copy by path. `texts` has the sources by name, `mutants` the mutants by number with their function's offsets."""
    by_file = collections.defaultdict(lambda: collections.defaultdict(list))
    for number, (mutant, body) in mutants.items():
        by_file[mutant.file][body].append((number, mutant))
    files = {}
    for name, bodies in by_file.items():
        path = (folder / name).resolve()
        functions = [(start, end, bodies[start, end]) for start, end in sorted(bodies)]
        files[path] = File(path, texts[name], functions)
    return files
