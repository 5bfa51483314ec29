//! `fleet` of many servers: what it tells does not depend on which thread reads a file, and what it keeps does not grow with the files.

use crate::fleet::{less, small};
use crate::json_text::jq;
use crate::page_sets::{epyc, set, with};
use crate::run::{Folder, Ran, command, finish, run};
use std::fs;
use std::process::{Command, Stdio};

/// So many servers are made of each file, by hard links: names of their own, in folders of their own.
fn copies(folder: &Folder, files: &[&str], number: usize) -> String {
    for copy in 0..number {
        let below = folder.path(&format!("copies/{copy:03}"));
        fs::create_dir_all(&below).unwrap();
        for file in files {
            fs::hard_link(folder.path(&format!("{file}.pages")), format!("{below}/{file}-{copy:03}.pages")).unwrap();
        }
    }
    folder.path("copies")
}

/// Sixty of each server are the same classes with sixty times the servers, the same refusals, moves, pools and notes.
#[test]
fn a_fleet_sixty_times() {
    let folder = Folder::new("fleet_sixty");
    small(&folder);
    folder.file("u1.pages", set(&with(7, 0, 1, |ebx| ebx | 1 << 16)));
    let names = folder.names();
    let few = run(&["fleet", &folder.path(""), "--json"]).out;
    let sixty = copies(&folder, &names.iter().map(|name| name.trim_end_matches(".pages")).collect::<Vec<_>>(), 60);
    let (text, json) = (run(&["fleet", &sixty]), run(&["fleet", &sixty, "--json"]));
    assert!(text.text().starts_with("600 servers: 480 accepted in 5 classes, 120 refused\n"), "{}", text.text());
    for _ in 0..4 {
        assert_eq!(run(&["fleet", &sixty]), text);
        assert_eq!(run(&["fleet", &sixty, "--json"]), json);
    }
    for (of_one, of_sixty) in [
        (
            "[.classes[] | [.name, .fingerprint, 60 * (.servers | length), .lacks, .may_go_to]]",
            "[.classes[] | [.name, .fingerprint, (.servers | length), .lacks, .may_go_to]]",
        ),
        ("[.moves, .features, .apart, .unpromised]", "[.moves, .features, .apart, .unpromised]"),
        ("[.pools[] | [.classes, 60 * .servers, .lost]]", "[.pools[] | [.classes, .servers, .lost]]"),
        ("[.servers[] | select(.refusal) | .refusal] | unique", "[.servers[] | select(.refusal) | .refusal] | unique"),
        ("[.unlike[] | range(60) as $i | [.to_it, .from_it]]", "[.unlike[] | [.to_it, .from_it]]"),
    ] {
        if let (Some(one), Some(sixty)) = (jq(&few, of_one), jq(&json.out, of_sixty)) {
            assert_eq!(one, sixty, "{of_sixty}");
        }
    }
    if let Some(read) = jq(&json.out, "[.servers[] | select(.answer == \"refused\") | .refusal.line] | group_by(.) | map([.[0], length])") {
        assert_eq!(read, r#"[["3 0000000B 0",60],["4",60]]"#);
    }
}

/// A run in so many bytes of address space.
fn run_within(bytes: usize, arguments: &[&str]) -> Ran {
    let snp_cpuid = command();
    let mut shell = Command::new("sh");
    // one arena for all threads: each further one would take address space that it does not use
    shell.env_remove("COLUMNS").env("MALLOC_ARENA_MAX", "1");
    finish(shell.args(["-c", "ulimit -v \"$0\" && exec \"$@\"", &(bytes >> 10).to_string()]).arg(snp_cpuid.get_program()).args(arguments))
}

/// Page sets that have 320 MiB together, and 128 MiB for all that the command needs.
#[test]
fn a_fleet_larger_than_its_memory() {
    let folder = Folder::new("fleet_within");
    let long = |mut pages: Vec<u8>| {
        pages.resize(1 << 20, 0);
        pages
    };
    folder.file("a.pages", long(set(&epyc())));
    folder.file("b.pages", long(set(&less(&epyc(), 1, 2, 12))));
    folder.file("c.pages", set(&with(0x8000_0008, 0, 1, |ebx| ebx & !8)));
    let fleet = copies(&folder, &["a", "b", "c"], 160);
    let ran = run_within(128 << 20, &["fleet", &fleet]);
    assert_eq!((ran.status, ran.err.as_str()), (1, ""));
    assert!(ran.text().starts_with("480 servers: 320 accepted in 2 classes, 160 refused\n"), "{}", ran.text());
    assert_eq!(run_within(128 << 20, &["fleet", &fleet, "--json"]), run(&["fleet", &fleet, "--json"]));
}

/// Of several files that are named and are not there, the first by its name is told, wherever it is given.
#[test]
fn the_first_failure_is_told() {
    let folder = Folder::new("fleet_failure");
    let mut files: Vec<String> = (0..90).map(|number| folder.file(&format!("{number:02}"), set(&epyc()))).collect();
    files.extend(["10x", "95", "40x"].map(|name| folder.path(name)));
    for _ in 0..2 {
        let ran = run(&[&["fleet".to_string()], &files[..]].concat());
        assert_eq!((ran.status, ran.line()), (2, format!("{}: no such file or directory", folder.path("10x")).as_str()));
        files.reverse();
    }
}

/// A report of before may be longer than a server's file may.
#[test]
fn a_long_report_of_before() {
    let folder = Folder::new("fleet_long_report");
    let fleet = folder.file("a.pages", set(&epyc()));
    let report = run(&["fleet", &fleet, "--json"]).out;
    let old = folder.file("old.json", [vec![b' '; 65 << 20], report].concat());
    let ran = run(&["fleet", &fleet, "--since", &old]);
    assert_eq!((ran.status, ran.text().ends_with(&format!("\nSince {old}: 0 servers changed\n"))), (0, true), "{}", ran.err);
}

/// At a terminal, which Debian's `script` gives, one line says how far the reading is, and it is cleared before the report.
#[test]
fn progress_at_a_terminal() {
    let folder = Folder::new("fleet_progress");
    let first = folder.file("0000.pages", set(&epyc()));
    (1..2100).for_each(|number| fs::hard_link(&first, folder.path(&format!("{number:04}.pages"))).unwrap());
    let asked = format!("{} fleet {}", env!("CARGO_BIN_EXE_snp-cpuid"), folder.path(""));
    let Ok(ran) = Command::new("script").args(["-qec", &asked, "/dev/null"]).env_remove("COLUMNS").stdin(Stdio::null()).output() else { return };
    let text = String::from_utf8(ran.stdout).unwrap();
    let told = ["2000 files found", "2000 of 2100 files read"].map(|words| format!("\rsnp-cpuid: {words}\x1b[K")).concat();
    assert!(text.starts_with(&format!("{told}\r\x1b[K2100 servers: all accepted, with one table\r\n")), "{text}");
}
