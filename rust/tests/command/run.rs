//! Runs the command.

use std::fs;
use std::io::Write;
use std::path::{Path, PathBuf};
use std::process::{Command, Stdio};
use std::sync::atomic::{AtomicUsize, Ordering};

/// The shipped page set.
pub const EPYC: &str = "../tests/data/epyc-milan.pages";

/// Runs of each command that builds the table of one page set, or of two servers that have the same, and prints nothing where it is refused: the page
/// set is PAGES, the output OUT.
#[rustfmt::skip]
pub const BUILDING: &[&[&str]] = &[
    &["table", "PAGES"],
    &["image", "PAGES", "-o", "OUT"],
    &["lookup", "PAGES", "1"],
    &["lookup", "PAGES", "1", "--apic", "1", "--xcr0", "1", "--xss", "0"],
    &["guest", "PAGES", "--apic", "1", "--xcr0", "1", "--xss", "0"],
    &["to-kvm", "PAGES", "-o", "OUT"],
    &["carry", "PAGES", "--from", "1", "--to", "2", "--xcr0", "1", "--xss", "0", "-o", "OUT"],
    &["pool", "PAGES", "PAGES"],
    &["pool", "PAGES", "PAGES", "-o", "OUT"],
];

/// Those of them that build under one edition; `carry` names two.
pub fn under_one_edition() -> impl Iterator<Item = &'static &'static [&'static str]> {
    BUILDING.iter().filter(|run| run[0] != "carry")
}

/// Runs of the other commands that read a file.
pub const READING: &[&[&str]] = &[
    &["from-dump", "PAGES", "-o", "OUT"],
    &["from-kvm", "PAGES", "-o", "OUT"],
    &["to-dump", "PAGES"],
    &["to-dump", "PAGES", "-o", "OUT"],
    &["set", "PAGES", "5.EAX=1", "-o", "OUT"],
    &["compare", "PAGES", EPYC],
    &["compare", EPYC, "PAGES"],
    &["diff", "PAGES", "PAGES"],
    &["nearest", "PAGES"],
    &["entries", "PAGES"],
];

/// A run of these lists with its files.
pub fn with_files(run: &[&str], pages: &str, out: &str) -> Vec<String> {
    let file = |word: &&str| match *word {
        "PAGES" => pages.to_string(),
        "OUT" => out.to_string(),
        other => other.to_string(),
    };
    run.iter().map(file).collect()
}

/// What a run gave.
#[derive(Debug, PartialEq, Eq)]
pub struct Ran {
    pub status: i32,
    pub out: Vec<u8>,
    pub err: String,
}

impl Ran {
    pub fn text(&self) -> &str {
        std::str::from_utf8(&self.out).expect("text")
    }

    /// The line on standard error, without the command's name; nothing stands on standard output.
    pub fn line(&self) -> &str {
        assert!(self.out.is_empty(), "{self:?}");
        self.failure()
    }

    /// The first line on standard error, without the command's name; all others are notes.
    pub fn failure(&self) -> &str {
        let (line, notes) = self.err.split_once('\n').expect("a line");
        assert!(notes.is_empty() || notes.ends_with('\n'));
        assert!(notes.lines().all(|note| note.starts_with("snp-cpuid: note: ")), "more than one line: {}", self.err);
        line.strip_prefix("snp-cpuid: ").expect("the command names itself")
    }

    /// The notes on standard error.
    pub fn notes(&self) -> Vec<&str> {
        self.err.lines().filter_map(|line| line.strip_prefix("snp-cpuid: note: ")).collect()
    }
}

pub fn command() -> Command {
    let mut command = Command::new(env!("CARGO_BIN_EXE_snp-cpuid"));
    // lines of the usual width, whatever terminal the tests run in
    command.env_remove("COLUMNS");
    command
}

/// Runs a command; no panic may show.
pub fn finish(command: &mut Command) -> Ran {
    let output = command.output().expect("the command starts");
    let err = String::from_utf8(output.stderr).expect("text");
    assert!(!err.contains("panicked"), "{err}");
    Ran { status: output.status.code().expect("no signal"), out: output.stdout, err }
}

pub fn run<S: AsRef<std::ffi::OsStr>>(arguments: &[S]) -> Ran {
    finish(command().args(arguments))
}

/// Runs it with these bytes on standard input.
pub fn run_on(input: &[u8], arguments: &[&str]) -> Ran {
    let mut child = command().args(arguments).stdin(Stdio::piped()).stdout(Stdio::piped()).stderr(Stdio::piped()).spawn().expect("it starts");
    child.stdin.take().expect("a pipe").write_all(input).expect("it reads");
    let output = child.wait_with_output().expect("it ends");
    Ran { status: output.status.code().expect("no signal"), out: output.stdout, err: String::from_utf8(output.stderr).expect("text") }
}

/// A new empty folder, which no other test has.
pub struct Folder(PathBuf);

impl Folder {
    pub fn new(name: &str) -> Folder {
        static MADE: AtomicUsize = AtomicUsize::new(0);
        let number = MADE.fetch_add(1, Ordering::Relaxed);
        let path = Path::new(env!("CARGO_TARGET_TMPDIR")).join(format!("{name}-{number}"));
        let _ = fs::remove_dir_all(&path);
        fs::create_dir_all(&path).expect("a folder");
        Folder(path)
    }

    pub fn path(&self, name: &str) -> String {
        self.0.join(name).to_str().expect("a plain path").to_string()
    }

    /// Writes a file and gives its path.
    pub fn file(&self, name: &str, bytes: impl AsRef<[u8]>) -> String {
        fs::write(self.0.join(name), bytes).expect("written");
        self.path(name)
    }

    /// The names in it, in order.
    pub fn names(&self) -> Vec<String> {
        let mut names: Vec<String> = fs::read_dir(&self.0).expect("read").map(|entry| entry.unwrap().file_name().into_string().unwrap()).collect();
        names.sort();
        names
    }
}

/// Leaves nothing behind where the test passed.
impl Drop for Folder {
    fn drop(&mut self) {
        if !std::thread::panicking() {
            let _ = fs::remove_dir_all(&self.0);
        }
    }
}
