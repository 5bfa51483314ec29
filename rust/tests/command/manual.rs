//! The manual page: its sections, and the lines of its examples, which run.

use crate::page_sets::{epyc, set, with};
use crate::run::{EPYC, Folder, run};
use std::fs;
use std::path::Path;
use std::process::{Command, Stdio};

fn page() -> String {
    run(&["man"]).text().to_string()
}

#[test]
fn sections_in_their_order() {
    let page = page();
    let sections: Vec<&str> = page.lines().filter_map(|line| line.strip_prefix(".Sh ")).collect();
    let expected = ["NAME", "SYNOPSIS", "DESCRIPTION", "COMMANDS", "ENVIRONMENT", "FILES", "EXIT STATUS", "EXAMPLES", "SEE ALSO"];
    assert_eq!(sections, expected);
}

/// Each line after `$` does what it says, over files of those names; a machine that is no AMD server may be refused.
#[test]
fn the_examples_run() {
    let folder = Folder::new("manual");
    let dump = run(&["to-dump", EPYC]).out;
    for name in ["server.dump", "a.dump", "b.dump"] {
        folder.file(name, &dump);
    }
    folder.file("own.pages", set(&with(0x8000_0008, 0, 1, |ebx| ebx & !8)));
    fs::create_dir(folder.path("folder")).unwrap();
    folder.file("folder/a.pages", set(&epyc()));
    let binaries = Path::new(env!("CARGO_BIN_EXE_snp-cpuid")).parent().unwrap().display().to_string();
    let page = page();
    let lines: Vec<String> = page.lines().filter_map(|line| line.strip_prefix("$ ")).map(|line| line.replace("\\-", "-")).collect();
    assert!(lines.len() >= 8, "{lines:?}");
    for line in lines {
        let output = Command::new("sh").args(["-c", &line]).current_dir(folder.path("")).env("PATH", binaries_first(&binaries)).output().unwrap();
        let here = line.contains("capture") || line.contains("own.pages");
        assert!(output.status.code() == Some(0) || here && output.status.code() == Some(1), "{line}: {}", String::from_utf8_lossy(&output.stderr));
    }
}

fn binaries_first(binaries: &str) -> String {
    format!("{binaries}:{}", std::env::var("PATH").unwrap())
}

/// Debian's `mandoc`, where it is installed (apt-get install mandoc), finds nothing to complain of.
#[test]
fn mandoc_lints_it() {
    let folder = Folder::new("manual_lint");
    let file = folder.file("snp-cpuid.1", page());
    let Ok(output) = Command::new("mandoc").args(["-T", "lint", &file]).stdin(Stdio::null()).output() else { return };
    let told = [output.stdout, output.stderr].map(|text| String::from_utf8_lossy(&text).into_owned());
    assert_eq!(told, ["", ""]);
}
