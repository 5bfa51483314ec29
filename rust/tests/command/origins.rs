//! `--origins` of table, lookup and guest: document 02, P11, on sets whose entries stand where the tests put them.

use crate::page_sets::{EPYC_ROWS, Entries, epyc, page, position, rich, set};
use crate::run::{EPYC, Folder, run};
use std::fs;

const HEADING: &str = "leaf        EAX      EBX      ECX      EDX       origin";
const PROCESSOR: [&str; 6] = ["--apic", "5", "--xcr0", "7", "--xss", "800"];

/// The lines of rows, each with what it says of its origin; nothing else changes by the option.
fn rows(arguments: &[&str]) -> Vec<(String, String)> {
    let ran = run(&[arguments, &["--origins"]].concat());
    assert_eq!((ran.status, ran.err.as_str()), (0, ""), "{arguments:?}");
    let plain = run(arguments);
    assert_eq!(ran.text().lines().next(), Some(HEADING));
    assert_eq!(ran.text().lines().count(), plain.text().lines().count());
    let mut found = vec![];
    for (line, without) in ran.text().lines().zip(plain.text().lines()).skip(1) {
        match line.strip_prefix(without).expect("the same line, or longer") {
            "" => assert!(
                line.is_empty() || line.starts_with("    ") || ["rows ", "fing", "comb", "save", "topo"].iter().any(|word| line.starts_with(word))
            ),
            origin => found.push((line[..12].trim_end().to_string(), origin.strip_prefix("  ").expect("two spaces").to_string())),
        }
        assert!(line.len() <= 100);
    }
    found
}

/// What document 02 says of each row, of a set that has each entry once.
fn expected(pages: &[u8], names: impl Iterator<Item = String>) -> Vec<(String, String)> {
    let hex = |text: &str| u32::from_str_radix(text, 16).expect("a number");
    let origin = |name: &str| match name {
        "00000000" | "80000000" | "0000000B.0" | "0000000B.1" => "made here".to_string(),
        _ => name.split_once('.').map_or_else(|| position(pages, hex(name), 0), |(leaf, subleaf)| position(pages, hex(leaf), hex(subleaf))),
    };
    names.map(|name| (name.clone(), origin(&name))).collect()
}

#[test]
fn every_row_of_a_table() {
    let folder = Folder::new("origins");
    let all: Entries = rich();
    let (state, others): (Vec<_>, Vec<_>) = all.iter().partition(|((leaf, _), _)| *leaf == 0xD);
    let falling = [page([]), page(state.into_iter().rev()), page([]), page(others.into_iter().rev())].concat();
    for (pages, count) in [(fs::read(EPYC).unwrap(), EPYC_ROWS), (set(&rich()), EPYC_ROWS + 3), (set(&epyc()), EPYC_ROWS), (falling, EPYC_ROWS + 3)] {
        let file = folder.file("pages", &pages);
        let found = rows(&["table", &file]);
        assert_eq!(found.len(), count);
        assert_eq!(found, expected(&pages, found.iter().map(|(name, _)| name.clone())));
        assert_eq!(found.iter().filter(|(_, origin)| origin == "made here").count(), 4);
        // the rows of a guest came from where the paravisor's did
        assert_eq!(rows(&[&["guest", &file][..], &PROCESSOR].concat()), found);
        for (name, origin) in found.iter().step_by(5) {
            assert_eq!(rows(&["lookup", &file, name]), [(name.clone(), origin.clone())]);
            assert_eq!(rows(&[&["lookup", &file, name][..], &PROCESSOR].concat()), [(name.clone(), origin.clone())]);
        }
    }
}

/// A leaf without subleaves is found under any, and its row is one.
#[test]
fn the_row_that_was_found() {
    assert_eq!(rows(&["lookup", EPYC, "1.9"]), [("00000001".to_string(), "page 0 entry 1".to_string())]);
    assert_eq!(rows(&["lookup", EPYC, "0.1"]), [("00000000".to_string(), "made here".to_string())]);
    let ran = run(&["lookup", EPYC, "D.5", "--origins"]);
    assert_eq!((ran.status, ran.out.len()), (3, 0));
}

/// P2: after reading a list the origins are those of the two pages that were read.
#[test]
fn after_a_list() {
    let folder = Folder::new("origins_kvm");
    let (list, again) = (folder.path("list"), folder.path("again"));
    assert_eq!(run(&["to-kvm", EPYC, "-o", &list]).status, 0);
    assert_eq!(run(&["from-kvm", &list, "-o", &again]).status, 0);
    let (mut others, mut states) = (0, 0);
    for (name, origin) in rows(&["table", &again]) {
        let (page, count) = if name.starts_with("0000000D.") { (1, &mut states) } else { (0, &mut others) };
        if origin != "made here" {
            assert_eq!(origin, format!("page {page} entry {count}"), "{name}");
        }
        *count += 1;
    }
    assert_eq!((others, states), (EPYC_ROWS - 5, 5));
}
