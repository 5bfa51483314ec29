//! `--edition`, of every command that builds under one: document 02, P7.

use crate::page_sets::{EPYC_ROWS, rich, set, stated, without};
use crate::run::{EPYC, Folder, Ran, run, under_one_edition, with_files};
use std::fs;

/// A run, and what it wrote.
fn written(arguments: &[String], out: &str) -> (Ran, Option<Vec<u8>>) {
    let _ = fs::remove_file(out);
    (run(arguments), fs::read(out).ok())
}

/// The lines of one text that the other has not.
fn new_lines<'a>(text: &'a str, other: &str) -> Vec<&'a str> {
    text.lines().filter(|line| !other.lines().any(|old| old == *line)).collect()
}

#[test]
fn three_names_go_without_the_state() {
    let folder = Folder::new("edition_names");
    let file = folder.file("pages", stated(3));
    let table = |edition| run(&["table", &file, "--edition", edition]);
    let (first, second) = (table("1"), table("2"));
    assert_eq!((first.status, second.status, second.err.as_str()), (0, 0, ""));
    assert_eq!(first, run(&["table", &file]));
    let names = |ran: &Ran| ran.text().split_whitespace().map(String::from).collect::<Vec<_>>();
    let (old, new) = (names(&first), names(&second));
    for name in ["F16C", "XOP", "FMA4"] {
        assert_eq!((old.iter().filter(|n| *n == name).count(), new.iter().filter(|n| *n == name).count()), (1, 0), "{name}");
    }
    // and two registers, by their figures
    let registers = new_lines(second.text(), first.text()).into_iter().filter(|line| !line.starts_with([' ', 'f'])).collect::<Vec<_>>();
    assert_eq!(registers, ["00000001    0FFF3FFF FF80FFFF CEDA2203 178BFBFF", "80000001    0FFF3FFF F000FFFF 004005F3 EFD3FBFF"]);
    assert_eq!(new.len() + 3, old.len());
}

/// Without an edition it is 1; where the state is there, 2 is the same.
#[test]
fn every_command_takes_it() {
    let folder = Folder::new("edition_commands");
    let out = folder.path("out");
    for (xfem, same) in [(7, true), (0xE7, true), (3, false), (0xE3, false)] {
        let file = folder.file("pages", stated(xfem));
        for arguments in under_one_edition() {
            let with = |words: &[&str]| {
                let mut arguments = with_files(arguments, &file, &out);
                arguments.extend(words.iter().map(|word| word.to_string()));
                written(&arguments, &out)
            };
            let usual = with(&[]);
            assert_eq!(usual.0.status, 0);
            assert_eq!(with(&["--edition", "1"]), usual);
            assert_eq!(with(&["--edition=0001"]), usual);
            assert_eq!(with(&["--edition=2"]) == usual, same, "{arguments:?} {xfem:X}");
        }
    }
}

#[test]
fn another_number_is_refusal_15_before_all_others() {
    let folder = Folder::new("edition_unknown");
    let out = folder.path("out");
    let why = "refusal 15: the AVX rule has no such edition: it has editions 1 and 2";
    for pages in [vec![0; 4096], set(&without(1, 0)), stated(3)] {
        let file = folder.file("pages", pages);
        for (arguments, edition) in under_one_edition().zip(["0", "3", "257", "4294967295"].iter().cycle()) {
            let mut arguments = with_files(arguments, &file, &out);
            arguments.extend(["--edition".into(), edition.to_string()]);
            let ran = run(&arguments);
            assert_eq!((ran.status, ran.line()), (1, format!("{file}: {why}").as_str()), "{arguments:?}");
            arguments.push("--line".into());
            assert_eq!((run(&arguments).status, run(&arguments).text()), (1, "15\n"));
        }
        assert_eq!(folder.names(), ["pages"]);
    }
    assert!(run(&["explain", "15"]).text().starts_with(&format!("{why}\n\n")));
}

#[test]
fn what_is_no_number_is_bad_usage() {
    for wrong in ["", "one", "-1", "+1", "1.0", "0x1", "2a", " 2", "4294967296"] {
        for arguments in [&["table", EPYC][..], &["compare", EPYC, EPYC], &["lookup", EPYC, "1"]] {
            let ran = run(&[arguments, &["--edition", wrong]].concat());
            let line = format!("{}: --edition '{wrong}' is no decimal number of up to 32 bits (see 'snp-cpuid {0} --help')", arguments[0]);
            assert_eq!((ran.status, ran.line()), (2, line.as_str()));
        }
    }
    for (arguments, words) in [
        (&["table", EPYC, "--edition"][..], "--edition needs a decimal number"),
        (&["table", EPYC, "--edition", "1", "--edition", "1"], "--edition is given twice"),
        (&["from-kvm", EPYC, "-o", "x", "--edition", "1"], "no option '--edition'"),
    ] {
        let ran = run(arguments);
        assert!(ran.status == 2 && ran.line().contains(words), "{}", ran.line());
    }
}

/// The report names the edition. Under 2 the tables of servers without YMM state may be equal where under 1 they are not.
#[test]
fn compare_says_under_which() {
    let folder = Folder::new("edition_compare");
    let mut less = rich();
    less.get_mut(&(0xD, 0)).unwrap()[0] = 3;
    less.get_mut(&(1, 0)).unwrap()[2] &= !(1 << 29);
    let (a, b) = (folder.file("a", stated(3)), folder.file("b", set(&less)));
    let compared = |edition| run(&["compare", &a, &b, "--edition", edition]);
    let rows = format!("accepted, {} rows", EPYC_ROWS - 1);
    for (edition, status, verdict) in [
        ("1", 1, "no: a guest of A may not move to B. B lacks F16C, leaf 00000001 ECX bit 29."),
        ("2", 0, "same: A and B give a guest the same table, row for row.\n"),
    ] {
        let ran = compared(edition);
        assert_eq!((ran.status, ran.err.as_str()), (status, ""));
        assert!(ran.text().starts_with(verdict), "{}", ran.text());
        let servers: Vec<&str> = ran.text().split("\n\n").nth(1).unwrap().lines().filter(|line| !line.starts_with("   fingerprint ")).collect();
        assert_eq!(servers, [&format!("A  {a}: {rows}"), &format!("B  {b}: {rows}"), &format!("under edition {edition} of the AVX rule")]);
    }
    assert!(compared("1").text().contains("00000001    ECX  F16C (bit 29): A has it, B has not\n"));
    let entries =
        "no: B lacks F16C, leaf 00000001 ECX bit 29: A has it at page 0 entry 0, B has not at page 0 entry 0, which the tables do not show.";
    assert!(compared("2").text().replace("\n        ", " ").contains(entries));
    let unknown = compared("3");
    assert!(unknown.text().starts_with("no: A is refused, by 15, and B, by 15.\n\n"), "{}", unknown.text());
    assert!(unknown.text().ends_with("is built:\nA to B  no: A is refused, by 15.\nB to A  no: B is refused, by 15.\n"));
    assert_eq!((unknown.status, unknown.notes()), (1, vec!["edition 3 was asked for", "needs --edition 1 or --edition 2"]));
    assert!(unknown.failure().starts_with(&format!("{a}: refusal 15: ")));
}
