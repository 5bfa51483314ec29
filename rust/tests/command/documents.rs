//! The lines after `$` in docs/COMMAND.md and README.md give what stands under them.

use crate::run::Folder;
use crate::{debian, json_text};
use std::path::Path;
use std::process::Command;

/// The command lines of a document, each with its output: the block of indented and empty lines under it.
fn sessions(document: &str) -> Vec<(String, String)> {
    let text = std::fs::read_to_string(document).expect("the document");
    let mut found: Vec<(String, String)> = vec![];
    let mut inside = false;
    for line in text.lines() {
        let indented = line.strip_prefix("    ");
        if let Some(command) = indented.and_then(|line| line.strip_prefix("$ ")) {
            inside = true;
            found.push((command.into(), String::new()));
        } else if inside && (indented.is_some() || line.is_empty()) {
            found.last_mut().expect("a command before").1 += &format!("{}\n", indented.unwrap_or_default());
        } else {
            inside = false;
        }
    }
    found
}

/// Runs every line in a new folder that has tests/, in the order of the document.
fn every_line_is_true(document: &str, folder: &str, least: usize) {
    let folder = Folder::new(folder);
    std::os::unix::fs::symlink(std::fs::canonicalize("../tests").unwrap(), folder.path("tests")).unwrap();
    let binaries = Path::new(env!("CARGO_BIN_EXE_snp-cpuid")).parent().unwrap().display().to_string();
    let path = format!("{binaries}:{}", std::env::var("PATH").unwrap());
    let sessions = sessions(document);
    assert!(sessions.len() >= least);
    for (command, expected) in sessions {
        if command.starts_with("cpuid ") && debian::installed().is_none() || command.contains("| jq ") && !json_text::installed() {
            continue;
        }
        let output = Command::new("sh")
            .args(["-c", &format!("{{ {command}; }} 2>&1")])
            .current_dir(folder.path(""))
            .env("PATH", &path)
            .env_remove("COLUMNS")
            .output()
            .unwrap();
        // the empty line that ends a block is the document's
        assert_eq!(String::from_utf8_lossy(&output.stdout).trim_end(), expected.trim_end(), "{command}");
    }
}

#[test]
fn command_md() {
    every_line_is_true("../docs/COMMAND.md", "command_md", 8);
}

#[test]
fn readme() {
    every_line_is_true("../README.md", "readme", 2);
}
