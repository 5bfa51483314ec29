//! `carry`: document 02, P8.

use crate::page_sets::{Entries, rich, set, stated, with, without};
use crate::run::{EPYC, Folder, Ran, run};
use std::fs;

/// Carries the table of a file; the written image, where there is one.
fn carried(file: &str, out: &str, words: &[&str]) -> (Ran, Option<Vec<u8>>) {
    let _ = fs::remove_file(out);
    let ran = run(&[&["carry", file, "-o", out], words].concat());
    (ran, fs::read(out).ok())
}

fn image(file: &str, words: &[&str]) -> Vec<u8> {
    run(&[&["image", file, "-o", "-"], words].concat()).out
}

/// A run that carries on a processor with x87 and SSE state, without a word on standard output.
fn told(folder: &Folder, file: &str, from: &str, to: &str) -> (String, Vec<u8>) {
    let (ran, written) = carried(file, &folder.path("out"), &["--from", from, "--to", to, "--xcr0", "3", "--xss", "0"]);
    assert_eq!((ran.status, ran.text()), (0, ""));
    (ran.err, written.expect("an image"))
}

#[test]
fn the_names_that_went_and_the_image_of_edition_2() {
    let folder = Folder::new("carry_names");
    for (pages, went) in [
        (stated(3), "F16C, XOP, FMA4 went"),
        (stated(0xE3), "F16C, XOP, FMA4 went"),
        (stated(7), "no bit went"),
        // the shipped set reports F16C alone of the three
        (set(&with(0xD, 0, 0, |_| 3)), "F16C went"),
        (fs::read(EPYC).unwrap(), "no bit went"),
    ] {
        let file = folder.file("pages", pages);
        assert_eq!(told(&folder, &file, "1", "2"), (format!("snp-cpuid: note: from edition 1 to 2: {went}\n"), image(&file, &["--edition", "2"])));
        for edition in ["1", "2"] {
            let (note, written) = told(&folder, &file, edition, edition);
            assert_eq!(note, format!("snp-cpuid: note: from edition {edition} to {edition}: no bit went\n"));
            assert_eq!(written, image(&file, &["--edition", edition]));
        }
    }
}

#[test]
fn secure_avic_and_standard_output() {
    let folder = Folder::new("carry_avic");
    let file = folder.file("pages", stated(3));
    let ran = run(&["carry", &file, "--from=1", "--to=02", "--xcr0=0x3", "--xss=1800", "-o", "-", "--secure-avic"]);
    assert_eq!((ran.status, ran.err.as_str()), (0, "snp-cpuid: note: from edition 1 to 2: F16C, XOP, FMA4 went\n"));
    assert_eq!(ran.out, image(&file, &["--edition", "2", "--secure-avic"]));
    assert_ne!(ran.out, image(&file, &["--edition", "2"]));
}

/// A state of FFFFFFFFh bytes at offset 0, with XSAVEC: 14 for a processor that has it on.
fn large() -> Entries {
    let mut entries = rich();
    entries.insert((0xD, 2), [u32::MAX, 0, 0, 0]);
    entries
}

#[test]
fn refusals_in_their_order() {
    let folder = Folder::new("carry_refused");
    let (out, pages) = (folder.path("out"), folder.file("pages", set(&large())));
    let words = [
        (13, "XCR0 lacks bit 0 (x87) or has a bit that D.0.EAX lacks, or XSS has a bit that D.1.ECX lacks"),
        (14, "the size of the compacted save area of XCR0 and XSS (D.1.EBX) does not fit 32 bits"),
        (15, "the AVX rule has no such edition: it has editions 1 and 2"),
        (16, "a table does not go from edition 2 of the AVX rule back to edition 1"),
    ];
    for (from, to, xcr0, number) in [
        ("0", "1", "6", 15),
        ("1", "3", "6", 15),
        ("2", "0", "5", 15),
        ("257", "258", "5", 15),
        ("2", "1", "6", 16),
        ("2", "1", "5", 16),
        ("2", "1", "3", 16),
        ("1", "2", "6", 13),
        ("1", "1", "10005", 13),
        ("1", "2", "5", 14),
        ("2", "2", "5", 14),
    ] {
        let arguments = ["--from", from, "--to", to, "--xcr0", xcr0, "--xss", "0"];
        let (ran, written) = carried(&pages, &out, &arguments);
        let (_, why) = words.into_iter().find(|(told, _)| *told == number).unwrap();
        assert_eq!((ran.status, ran.line()), (1, format!("{pages}: refusal {number}: {why}").as_str()));
        let told = match number {
            13 => "needs XCR0 ",
            14 => "after the 240 bytes of x87 and SSE state stand D.2 from 240 to ",
            15 => "edition ",
            _ => "needs --to 2, which changes nothing",
        };
        assert!(ran.notes().iter().any(|note| note.starts_with(told)), "{}", ran.err);
        assert_eq!(written, None);
        let (line, written) = carried(&pages, &out, &[&arguments[..], &["--line"]].concat());
        assert_eq!((line.status, line.text(), &line.err), (1, format!("{number}\n").as_str(), &ran.err));
        assert_eq!(written, None);
        assert!(run(&["explain", &number.to_string()]).text().starts_with(&format!("refusal {number}: {why}\n\n")));
    }
}

/// The table runs: it must be there before it is carried.
#[test]
fn building_comes_first() {
    let folder = Folder::new("carry_unbuilt");
    let (out, pages) = (folder.path("out"), folder.file("pages", set(&without(0xD, 2))));
    for (to, xcr0) in [("2", "0"), ("3", "1")] {
        let (ran, _) = carried(&pages, &out, &["--from", "1", "--to", to, "--xcr0", xcr0, "--xss", "0"]);
        assert!(ran.status == 1 && ran.line().starts_with(&format!("{pages}: refusal 3: ")), "{}", ran.line());
    }
    assert_eq!(folder.names(), ["pages"]);
}

#[test]
fn bad_usage() {
    let all = ["--from", "1", "--to", "2", "--xcr0", "1", "--xss", "0", "-o", "x"];
    for (place, wanted) in [(0, "--from E"), (2, "--to E"), (4, "--xcr0 X"), (6, "--xss X"), (8, "-o FILE")] {
        let rest = [&all[..place], &all[place + 2..]].concat();
        let ran = run(&[&["carry", EPYC], &rest[..]].concat());
        assert_eq!((ran.status, ran.line()), (2, format!("carry: {wanted} is missing (see 'snp-cpuid carry --help')").as_str()));
    }
    for (place, wrong, why) in [
        (1, "0x1", "--from '0x1' is no decimal number of up to 32 bits"),
        (3, "4294967296", "--to '4294967296' is no decimal number of up to 32 bits"),
        (3, "", "--to '' is no decimal number of up to 32 bits"),
        (5, "1g", "--xcr0 '1g' is no hexadecimal number of up to 64 bits"),
        (7, "10000000000000000", "--xss '10000000000000000' is no hexadecimal number of up to 64 bits"),
    ] {
        let mut words = all;
        words[place] = wrong;
        let ran = run(&[&["carry", EPYC], &words[..]].concat());
        assert_eq!((ran.status, ran.line()), (2, format!("carry: {why} (see 'snp-cpuid carry --help')").as_str()));
    }
    let ran = run(&[&["carry", EPYC, "--edition", "1"], &all[..]].concat());
    assert!(ran.status == 2 && ran.line().contains("no option '--edition'"), "{}", ran.line());
}
