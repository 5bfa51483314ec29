//! Every refusal that a page set can have: its line, its status, and nothing written.

use crate::json_text::jq;
use crate::page_sets::{epyc, set, unclean, with, without};
use crate::run::{BUILDING, EPYC, Folder, run, run_on, with_files};
use std::fs;

/// Page sets with the number, leaf, subleaf and s that document 01 gives them, as JSON has them.
fn cases() -> Vec<(Vec<u8>, &'static str, &'static str)> {
    let shipped = set(&epyc());
    let mut counted = shipped.clone();
    counted[4096] = 65;
    vec![
        ([&shipped[..], &[1, 2, 3]].concat(), "1", "[null,null,null]"),
        (shipped[..8191].to_vec(), "1", "[null,null,null]"),
        (counted, "2", "[null,null,null]"),
        (set(&without(0x8000_001A, 0)), "3", r#"["8000001A",null,null]"#),
        (set(&without(0x8000_001D, 3)), "3", r#"["8000001D",3,null]"#),
        (set(&without(0xD, 11)), "3", r#"["0000000D",11,null]"#),
        (set(&with(0x8000_0008, 0, 1, |ebx| ebx & !8)), "4", "[null,null,null]"),
        (set(&with(0xD, 2, 0, |_| u32::MAX)), "5", "[null,null,null]"),
        // T7: s = 7, no hyperthreading
        (set(&with(0x1, 0, 3, |edx| edx & !(1 << 28))), "6", "[null,null,7]"),
        // T6: more processors than 2^s
        (set(&with(0x8000_0008, 0, 2, |ecx| ecx | 0x80)), "7", "[null,null,7]"),
        (set(&with(0x8000_001E, 0, 1, |ebx| ebx | 0xFF00)), "8", "[null,null,null]"),
        // leaf 0, which no table reads, and the second entry of leaf Dh; leaf 1 is missing besides
        (unclean(&epyc(), 0, 0, 0), "17", r#"["00000000",null,null]"#),
        (unclean(&without(0x1, 0), 1, 1, 7), "17", r#"["0000000D",null,null]"#),
    ]
}

/// Whether registers or reserved bytes alone mend the cases; a missing leaf they do not, and in the last leaf 1 is missing besides.
const MENDED: [bool; 13] = [false, false, false, false, false, true, true, true, true, true, true, true, false];

#[test]
fn each_is_one_line_and_its_notes() {
    let folder = Folder::new("refusals");
    for ((pages, number, carries), mended) in cases().into_iter().zip(MENDED) {
        let file = folder.file("pages", &pages);
        let ran = run(&["table", &file]);
        assert_eq!(ran.status, 1);
        assert!(ran.line().starts_with(&format!("{file}: refusal {number}: ")), "{}", ran.err);
        // the numbers behind it, and what would be accepted
        let told = |start: &str| ran.notes()[1..].iter().any(|note| note.starts_with(start));
        assert_eq!((told("accepted with ") || told("or accepted with "), told("needs ")), (mended, !mended || number == "3"), "{}", ran.err);
        assert!(!ran.err.contains("none"), "nothing is said of what is not named: {}", ran.err);
        // every command that builds says the same
        for arguments in BUILDING {
            assert_eq!(run(&with_files(arguments, &file, &folder.path("out"))), ran);
        }
        // JSON says all that it carries, and standard error is as before
        let told = run(&["table", &file, "--json"]);
        assert_eq!((told.status, &told.err), (1, &ran.err));
        if let Some(read) = jq(&told.out, "[.answer, .refusal.number, (.refusal | [.leaf, .subleaf, .s])]") {
            assert_eq!(read, format!("[\"refused\",{number},{carries}]"));
        }
    }
}

/// The lines of the cases, written down from document 02, P6.
#[rustfmt::skip]
const LINES: [&str; 13] = [
    "1\n", "1\n", "2\n", "3 8000001A\n", "3 8000001D 3\n", "3 0000000D 11\n", "4\n", "5\n", "6 7\n", "7 7\n", "8\n", "17 00000000\n", "17 0000000D\n",
];

#[test]
fn each_has_a_line_on_standard_output() {
    let folder = Folder::new("refusal_lines");
    let cases = cases();
    assert_eq!(cases.len(), LINES.len());
    for ((pages, ..), expected) in cases.into_iter().zip(LINES) {
        let file = folder.file("pages", &pages);
        for arguments in BUILDING {
            let mut arguments = with_files(arguments, &file, &folder.path("out"));
            let without = run(&arguments);
            arguments.push("--line".into());
            let ran = run(&arguments);
            assert_eq!((ran.status, ran.text(), &ran.err), (1, expected, &without.err));
            // and back into the words of the refusal
            let explained = run(&["explain", expected.trim_end()]);
            assert_eq!((explained.status, explained.err.as_str()), (0, ""));
            let words = explained.text().lines().next().unwrap();
            assert_eq!(format!("{file}: {words}"), ran.failure());
            assert_eq!(run_on(expected.as_bytes(), &["explain", "-"]), explained);
        }
    }
}

#[test]
fn an_accepted_table_has_no_line() {
    assert_eq!(run(&["table", EPYC, "--line"]), run(&["table", EPYC]));
}

#[test]
fn entries_gives_the_line_after_its_report() {
    let folder = Folder::new("entries_line");
    let file = folder.file("pages", set(&without(0xD, 2)));
    let ran = run(&["entries", &file, "--line"]);
    assert_eq!((ran.status, ran.text()), (0, format!("{}3 0000000D 2\n", run(&["entries", &file]).text()).as_str()));
    assert_eq!(run(&["entries", EPYC, "--line"]), run(&["entries", EPYC]));
}

#[test]
fn compare_gives_the_line_after_its_report() {
    let folder = Folder::new("compare_line");
    let file = folder.file("pages", set(&without(0xD, 2)));
    let plain = run(&["compare", EPYC, &file]);
    let ran = run(&["compare", EPYC, &file, "--line"]);
    assert_eq!((ran.status, ran.text()), (1, format!("{}3 0000000D 2\n", plain.text()).as_str()));
    assert_eq!(ran.err, plain.err);
}

#[test]
fn what_is_no_line_is_not_explained() {
    for line in ["", "0", "01", "17 0000000D 0", "3 0000000d", "3 0000000D 02", "3  0000000D", "6 256", "07", "+7", "1 ", " 1", "1\n", "1\r", "one"] {
        let ran = run(&["explain", line]);
        assert_eq!((ran.status, ran.line().ends_with(": no such line")), (1, true), "{line:?}");
    }
    // the same from standard input, a number alone too
    for number in [3, 6, 7, 17] {
        let ran = run_on(format!("{number}\n").as_bytes(), &["explain", "-"]);
        assert_eq!(ran, run(&["explain", &number.to_string()]));
    }
    for input in ["1", "7", "07\n", "7\n\n", "1\n\n", "1\r\n", ""] {
        assert_eq!(run_on(input.as_bytes(), &["explain", "-"]).line(), "standard input: no such line", "{input:?}");
    }
}

/// A number alone has its meaning, whether or not it is a line too; each number of the messages has one of its own.
#[test]
fn a_number_is_explained_in_general() {
    let mut meanings = std::collections::BTreeSet::new();
    let text = std::fs::read_to_string("../tests/data/messages.txt").unwrap();
    let last: usize = text.lines().last().unwrap().split([' ', ':']).next().unwrap().parse().unwrap();
    for number in 1..=last {
        let ran = run(&["explain", &number.to_string()]);
        assert_eq!((ran.status, ran.err.as_str()), (0, ""));
        let (first, meaning) = ran.text().split_once("\n\n").unwrap();
        let is_line = text.lines().any(|line| line.starts_with(&format!("{number}: ")));
        assert_eq!(first.starts_with(&format!("refusal {number}: ")), is_line, "{first}");
        assert!(is_line || first == format!("refusal {number}"));
        assert!(ran.text().lines().skip(1).all(|line| line.len() <= 100 && line.is_ascii()));
        meanings.insert(meaning.to_string());
        if let Some(read) = jq(&run(&["explain", &number.to_string(), "--json"]).out, "[.number, (.meaning | length), .refusal.number]") {
            let length = meaning.replace('\n', " ").trim_end().len();
            assert_eq!(read, format!("[{number},{length},{}]", if is_line { number.to_string() } else { "null".into() }));
        }
    }
    assert_eq!(meanings.len(), last);
    assert!(run(&["explain", &(last + 1).to_string()]).line().ends_with(": no such line"));
    let line = run(&["explain", "7 6"]);
    assert!(line.text().starts_with("refusal 7: the topology leaves disagree: 1.EBX bits 16-23 must be 2^6 = 64, and "), "{}", line.text());
}

#[test]
fn nothing_is_written() {
    let folder = Folder::new("refused_output");
    for (pages, ..) in cases() {
        let file = folder.file("pages", &pages);
        let old = folder.file("old", "as it was");
        for arguments in BUILDING {
            for out in [&old, &folder.path("new")] {
                assert_eq!(run(&with_files(arguments, &file, out)).status, 1);
            }
        }
        assert_eq!(fs::read(&old).unwrap(), b"as it was");
        assert_eq!(folder.names(), ["old", "pages"]);
    }
}

#[test]
fn the_words_of_a_missing_state_name_the_page() {
    let folder = Folder::new("refusal_words");
    let file = folder.file("pages", set(&without(0xD, 2)));
    let words = "refusal 3: no entry for leaf Dh subleaf 2h on page 1, where the entries of Dh must stand";
    assert_eq!(run(&["table", &file]).line(), format!("{file}: {words}"));
}

/// Bytes that document 02, P10, leaves untested: above the count, after it, and XCR0_IN and XSS_IN.
#[test]
fn other_bytes_are_not_looked_at() {
    let folder = Folder::new("unread_bytes");
    let usual = run(&["table", &folder.file("pages", set(&epyc()))]);
    assert_eq!(usual.status, 0);
    let count = epyc().keys().filter(|(leaf, _)| *leaf == 0xD).count();
    let mut pages = unclean(&epyc(), 1, count, 0);
    pages[4096 + 4..4096 + 16].fill(0xFF);
    pages[16 + 8..16 + 24].fill(0xFF);
    assert_eq!(run(&["table", &folder.file("pages", pages)]), usual);
}
