//! `topologies`: document 02, P14.

use crate::run::{EPYC, Folder, run};
use std::fs;

/// The accepted inputs of the model's list, which tests/lists/make_topologies.py wrote: the five numbers of a line that is not refused.
fn by_the_model() -> Vec<Vec<u8>> {
    let lines = include_str!("../topologies.txt").lines().filter(|line| !line.contains(" r "));
    lines.map(|line| line.split(' ').take(5).map(|word| word.parse().expect("a byte")).collect()).collect()
}

#[test]
fn a_line_for_each() {
    let ran = run(&["topologies"]);
    assert_eq!((ran.status, ran.err.as_str()), (0, ""));
    let mut lines = ran.text().lines();
    assert_eq!(lines.next(), Some("s  nc lps mt t"));
    let told: Vec<Vec<u8>> = lines.map(|line| line.split_whitespace().map(|word| word.parse().expect("a byte")).collect()).collect();
    assert_eq!(told, by_the_model());
    assert_eq!(told.len(), 1019);
}

#[test]
fn bytes_with_an_output() {
    let folder = Folder::new("topologies");
    let expected = by_the_model().concat();
    let out = folder.file("list", "an older one");
    for arguments in [&["topologies", "-o", &out][..], &["topologies", &format!("--output={out}")]] {
        let ran = run(arguments);
        assert_eq!((ran.status, ran.out.len(), ran.err.as_str()), (0, 0, ""));
        assert_eq!(fs::read(&out).unwrap(), expected);
    }
    let ran = run(&["topologies", "-o", "-"]);
    assert_eq!((ran.status, ran.out, ran.err.as_str()), (0, expected, ""));
    assert_eq!(folder.names(), ["list"]);
}

#[test]
fn bad_usage() {
    let folder = Folder::new("topologies_bad");
    for (arguments, why) in [
        (&["topologies", EPYC][..], "one operand too many, '../tests/data/epyc-milan.pages'"),
        (&["topologies", "--edition", "1"], "no option '--edition'"),
        (&["topologies", "-o"], "-o needs a file name"),
    ] {
        let ran = run(arguments);
        assert_eq!((ran.status, ran.line()), (2, format!("topologies: {why} (see 'snp-cpuid topologies --help')").as_str()));
    }
    let out = folder.path("no/such");
    let ran = run(&["topologies", "-o", &out]);
    assert_eq!((ran.status, ran.line()), (2, format!("{out}: cannot be written: no such file or directory").as_str()));
    assert_eq!(folder.names(), [""; 0]);
}
