//! `completion` and `man`. That shells and mandoc take what they print is tested in tests/installed.

use crate::run::{Folder, run};
use std::fs;

#[test]
fn both_print_and_write_the_same() {
    let folder = Folder::new("shells");
    for arguments in [&["man"][..], &["completion", "bash"], &["completion", "zsh"], &["completion", "fish"]] {
        let printed = run(arguments);
        assert_eq!((printed.status, printed.err.as_str()), (0, ""));
        assert!(printed.text().is_ascii() && printed.text().ends_with('\n'));
        let out = folder.path("out");
        assert_eq!(run(&[arguments, &["-o", &out]].concat()).status, 0);
        assert_eq!(fs::read(out).unwrap(), printed.out);
    }
}

#[test]
fn a_shell_without_a_script_is_bad_usage() {
    for shell in ["tcsh", "", "BASH", "bash|zsh|fish"] {
        let ran = run(&["completion", shell]);
        assert_eq!(ran.status, 2);
        assert_eq!(ran.line(), format!("completion: there is no script for the shell '{shell}' (see 'snp-cpuid completion --help')"));
    }
}

/// No line of the page that is text may begin like a macro, and none is longer than mandoc likes.
#[test]
fn the_page_is_macros_and_text() {
    let ran = run(&["man"]);
    let macros = [".Bd ", ".Bl ", ".Dd ", ".Dt ", ".Ed", ".El", ".Fl ", ".It ", ".Ar ", ".Nd ", ".Nm", ".Op ", ".Os", ".Pp", ".Sh ", ".Ss "];
    for line in ran.text().lines() {
        assert!(line.len() <= 80 && !line.is_empty(), "{line}");
        assert!(!line.starts_with(['.', '\'']) || macros.iter().any(|name| line.starts_with(name)), "{line}");
    }
}
