//! `nearest`: document 02, P13. The bits are the model's (rust/tests/nearest.txt), or follow from what the pages report.

use crate::page_sets::{EPYC_ROWS, Entries, epyc, page, rich, set, topology, unclean, with, without};
use crate::run::{EPYC, Folder, run};

const INVLPGB_GONE: &str = "refusal 4: INVLPGB (80000008h.EBX bit 3) is required but unavailable";

/// What is printed, where a bit decides.
fn told(pages: &[u8], words: &[&str]) -> String {
    let folder = Folder::new("nearest_told");
    let file = folder.file("pages", pages);
    let ran = run(&[&["nearest", file.as_str()], words].concat());
    assert_eq!((ran.status, ran.err.as_str()), (0, ""));
    // the pages are not written
    assert_eq!(std::fs::read(&file).unwrap(), pages);
    ran.text().to_string()
}

/// All entries on page 1, where leaf Dh counts, the one of this leaf and subleaf first.
fn led_by(entries: &Entries, leaf: u32, subleaf: u32) -> Vec<u8> {
    let first = entries.get_key_value(&(leaf, subleaf)).expect("an entry");
    [vec![0; 4096], page([first].into_iter().chain(entries.iter().filter(|entry| entry.0 != first.0)))].concat()
}

#[test]
fn a_bit_of_the_table() {
    let ran = run(&["nearest", EPYC]);
    assert_eq!((ran.status, ran.err.as_str()), (0, ""));
    assert_eq!(
        ran.text(),
        format!(
            "page 0, entry 1, EAX bit 0\nleaf 00000001 EAX bit 0, bit 0 of processor-stepping: set\n\n\
             as it stands  accepted, {EPYC_ROWS} rows\nflipped       accepted, {EPYC_ROWS} rows\n\n\
             00000001    EAX  as it stands 00A00F11, flipped 00A00F10\n"
        )
    );
}

#[test]
fn names_of_features_and_fields() {
    // D.0.EAX bit 2 is the first that is not set anyway; with it gone the table has no YMM state, no D.2 and no AVX
    let text = told(&led_by(&rich(), 0xD, 0), &[]);
    assert!(text.starts_with("page 1, entry 0, EAX bit 2\nleaf 0000000D.0 EAX bit 2, AVX: set\n\n"), "{text}");
    assert!(text.contains("\n00000001    ECX  AVX (bit 28): as it stands has it, flipped has not (OpenBLAS)\n"), "{text}");
    assert!(text.contains("\n0000000D.2  a row of as it stands alone\n"), "{text}");
    // 8000001Fh.EAX bit 0
    let text = told(&led_by(&rich(), 0x8000_001F, 0), &[]);
    assert!(text.starts_with("page 1, entry 0, EAX bit 0\nleaf 8000001F EAX bit 0, SME: set\n\n"), "{text}");
    // leaf 5 has no names here
    let text = told(&led_by(&rich(), 0x5, 0), &[]);
    assert!(text.starts_with("page 1, entry 0, EAX bit 0\nleaf 00000005 EAX bit 0, without a name here: set\n\n"), "{text}");
}

#[test]
fn refused_pages_have_a_bit_that_decides() {
    let clear = with(0x8000_0008, 0, 1, |ebx| ebx & !8);
    let text = told(&set(&clear), &[]);
    let (place, rest) = text.split_once('\n').unwrap();
    assert!(place.ends_with("EBX bit 3"), "{place}");
    assert_eq!(rest, format!("leaf 80000008 EBX bit 3, INVLPGB: clear\n\nas it stands  {INVLPGB_GONE}\nflipped       accepted, {EPYC_ROWS} rows\n"));
    // a subleaf of Dh that the mask needs: its bit of D.0.EAX
    let mut lacking = rich();
    lacking.remove(&(0xD, 5)).unwrap();
    let text = told(&led_by(&lacking, 0xD, 0), &[]);
    assert!(text.starts_with("page 1, entry 0, EAX bit 5\nleaf 0000000D.0 EAX bit 5, opmask: set\n\nas it stands  refusal 3: "), "{text}");
    // opmask, and so one state of six less
    assert!(text.ends_with(&format!("\nflipped       accepted, {} rows\n", EPYC_ROWS + 2)), "{text}");
    // 7 by nc = 200, which no bit of 8000001Eh or 1 mends: INVLPGB again, and from one refusal to another
    let mut many = rich();
    topology(&mut many, 7, 200, 128, 1, 1);
    let text = told(&led_by(&many, 0x8000_0008, 0), &[]);
    assert!(text.starts_with("page 1, entry 0, EBX bit 3\nleaf 80000008 EBX bit 3, INVLPGB: set\n\nas it stands  refusal 7: "), "{text}");
    assert!(text.ends_with(&format!("\nflipped       {INVLPGB_GONE}\n")), "{text}");
}

#[test]
fn no_bit() {
    let folder = Folder::new("nearest_none");
    let mut counted = set(&epyc());
    counted[0] = 65;
    for (pages, words, line, said) in [
        (set(&without(1, 0)), &[][..], "20\n", "refusal 20: no single result bit changes the answer when it is flipped"),
        (set(&without(0xD, 1)), &[], "20\n", "refusal 20: "),
        (set(&without(1, 0)), &["--edition", "3"], "15\n", "refusal 15: "),
        ([set(&epyc()), vec![0]].concat(), &[], "1\n", "refusal 1: "),
        (counted, &[], "2\n", "refusal 2: "),
        (unclean(&without(5, 0), 0, 1, 3), &[], "17 00000001\n", "refusal 17: "),
    ] {
        let file = folder.file("pages", pages);
        let ran = run(&[&["nearest", &file, "--line"], words].concat());
        assert_eq!((ran.status, ran.text()), (1, line));
        assert!(ran.failure().contains(said), "{}", ran.err);
    }
}

#[test]
fn standard_input_and_choices() {
    let pages = led_by(&rich(), 0x8000_001F, 0);
    for words in [&["--secure-avic"][..], &["--edition", "2"], &["--secure-avic", "--edition=2"]] {
        let ran = crate::run::run_on(&pages, &[&["nearest", "-"], words].concat());
        assert_eq!((ran.status, ran.text().lines().next()), (0, Some("page 1, entry 0, EAX bit 0")));
    }
}
