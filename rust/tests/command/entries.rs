//! `entries`: every entry as it stands. What is kept, counted and first follows document 01; the answer is the library's.

use crate::json_text::jq;
use crate::page_sets::{EPYC_ROWS, Entries, epyc, page, set, unclean, with};
use crate::run::{EPYC, Folder, run};
use std::fs;

fn text(pages: &[u8]) -> String {
    let folder = Folder::new("entries");
    let ran = run(&["entries", &folder.file("pages", pages)]);
    assert_eq!((ran.status, ran.err.as_str()), (0, ""));
    ran.text().split_once(": ").unwrap().1.to_string()
}

#[test]
fn the_shipped_set() {
    let ran = run(&["entries", EPYC]);
    assert_eq!((ran.status, ran.err.as_str()), (0, ""));
    let head = format!("{EPYC}: accepted, {EPYC_ROWS} rows\n\npage 0, count 32\nentry  leaf        EAX      EBX      ECX      EDX\n");
    assert!(ran.text().starts_with(&head));
    // raw as the bytes have it, and by document 01's check of the mask of 1.ECX, 7EDA3203h
    assert!(
        ran.text()
            .contains("\n    1  00000001.0  00A00F11 00800800 7EDA320B 178BFBFF  first\n       masked      00A00F11 00800800 7EDA3203 178BFBFF\n")
    );
    assert!(ran.text().contains("\n    0  00000000.0  00000010 68747541 444D4163 69746E65  not kept\n    1  "));
    // every entry below the counts has its line
    let pages = fs::read(EPYC).unwrap();
    let lines = ran.text().lines().filter(|line| line.get(..7).is_some_and(|start| start.trim().parse::<usize>().is_ok())).count();
    assert_eq!(lines, usize::from(pages[0]) + usize::from(pages[4096]));
    assert_eq!(ran.text().matches("  first").count() + ran.text().matches("  not kept\n").count(), lines);
    assert_eq!(ran.text().matches("  first, but the builder makes this row\n").count(), 2);
    assert_eq!(ran.text().matches("  first, but the table does not have its state\n").count(), 1);
}

#[test]
fn what_does_not_count() {
    let mut twice = epyc();
    let five = [1, 2, 3, 4];
    twice.insert((0x5, 9), five);
    let text_twice = text(&set(&twice));
    let again = "00000005.9  00000001 00000002 00000003 00000004  later: page 0 entry ";
    assert!(text_twice.contains(again), "{text_twice}");
    // leaf Dh on page 0, and an entry above the count
    let state: Entries = epyc().into_iter().filter(|(place, _)| place.0 == 0xD).collect();
    let mut pages = [page(&state), set(&epyc())[4096..].to_vec()].concat();
    pages[16 + 48 * 20] = 0x77;
    let told = text(&pages);
    assert!(told.starts_with("refusal 3: no entry for leaf 1h, which every guest needs\nno entry for 00000001, "), "{told}");
    assert_eq!(told.matches("  not counted: leaf Dh counts on page 1 alone\n").count(), state.len());
    assert!(told.contains("\n   20  00000077.0  00000000 00000000 00000000 00000000  not counted: its page counts fewer\n"), "{told}");
    assert_eq!(told.matches("  first\n").count(), state.len());
}

/// Pages that no other command shows: of no whole length, with a count beyond 64, with reserved bytes.
#[test]
fn pages_that_cannot_be_read() {
    let over = [set(&epyc()), vec![1, 2, 3]].concat();
    assert!(text(&over).starts_with("refusal 1: "));
    assert!(text(&over).ends_with("\n3 bytes after the last whole page\n"));
    assert_eq!(text(&over).matches("  first").count(), text(&set(&epyc())).matches("  first").count());
    let mut counted = set(&epyc());
    counted[4096] = 65;
    let told = text(&counted);
    assert!(told.starts_with("refusal 2: ") && told.contains("\npage 1, count 65\n"), "{told}");
    let told = text(&unclean(&with(0x1, 0, 0, |eax| eax), 0, 1, 2));
    assert!(told.starts_with("refusal 17: ") && told.contains("\n       reserved bytes 00 00 01 00 00 00 00 00\n"), "{told}");
    // XCR0_IN and XSS_IN, which are not read
    let mut states = set(&epyc());
    (states[16 + 48 + 8], states[16 + 48 + 16]) = (7, 8);
    assert!(text(&states).contains("\n       XCR0_IN 7, XSS_IN 8\n"));
}

/// The rows of a table with an origin are exactly the entries that are said to be first, leaf Bh apart, which is made here, and D.9.
#[test]
fn first_entries_are_the_tables() {
    let ran = run(&["entries", EPYC, "--json"]);
    let table = run(&["table", EPYC, "--json"]);
    let first = "[.entries[] | select(.first and .leaf != \"0000000B\") | [.page, .entry]] | sort";
    let origins = "[.rows[] | select(.origin == \"entry\") | [.page, .entry]] | sort";
    if let (Some(first), Some(origins)) = (jq(&ran.out, first), jq(&table.out, origins)) {
        // page 1 entry 3 is D.9, a state that no table has
        assert_eq!(first.replace(",[1,3]", ""), origins);
        let in_table = jq(&ran.out, "[.entries[] | select(.in_table) | [.page, .entry]] | sort").unwrap();
        assert_eq!(in_table, origins);
    }
    // masked as the library has it, in rows that no rule changes
    let masked = ".entries[] | select(.first and .leaf == \"80000005\") | .masked | [.eax, .ebx, .ecx, .edx]";
    if let Some(masked) = jq(&ran.out, masked) {
        assert_eq!(masked, jq(&table.out, ".rows[] | select(.leaf == \"80000005\") | [.eax, .ebx, .ecx, .edx]").unwrap());
    }
    let refused = Folder::new("entries_json");
    let out = run(&["entries", &refused.file("pages", unclean(&epyc(), 1, 0, 7)), "--json"]).out;
    let filter = "[.answer, .refusal.number, .counts, (.entries[] | select(.leaf == \"0000000D\" and .subleaf == 0) | .reserved)]";
    if let Some(read) = jq(&out, filter) {
        let counts = (epyc().keys().filter(|place| place.0 != 0xD).count(), epyc().keys().filter(|place| place.0 == 0xD).count());
        assert_eq!(read, format!("[\"refused\",17,[{},{}],\"00 00 00 00 00 00 00 01\"]", counts.0, counts.1));
    }
}
