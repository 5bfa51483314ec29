//! Replays carry.txt, whose answers are those of the model (tests/lists/make_carry.py writes it and says how a line reads); and carries the tables of
//! the page sets of guest.txt.

mod replay;

use replay::{edited, shipped};
use snp_cpuid::exports::{Carried, snp_cpuid_carry};
use snp_cpuid::{NotCarried, Options, Processor, Refusal, Table, build, carry_image, guest};
use std::collections::BTreeMap;

fn number(text: &str) -> u64 {
    u64::from_str_radix(text, 16).expect("a number")
}

/// What the library answers, and the bytes afterwards; the crate's function answers the same.
fn carried(mut image: Vec<u8>, from: u32, to: u32, xcr0: u64, xss: u64) -> (Carried, Vec<u8>) {
    let mut by_crate = image.clone();
    let answer = carry_image(&mut by_crate, from, to, xcr0, xss);
    // SAFETY: the pointer and length are those of a vector's bytes, and the function reads and writes within them
    let numbers = unsafe { snp_cpuid_carry(image.as_mut_ptr(), image.len(), from, to, xcr0, xss) };
    assert_eq!(by_crate, image);
    let told = match answer {
        Err(NotCarried::NotAnImage) => Carried::default(),
        Err(NotCarried::Refused(refusal)) => Carried { is_image: 1, number: refusal.number() },
        Ok(()) => Carried { is_image: 1, number: 0 },
    };
    assert_eq!(numbers, told);
    (numbers, image)
}

#[test]
fn answers_and_bytes_are_the_models() {
    let text = std::fs::read_to_string("tests/carry.txt").expect("the list");
    let (mut image, mut seen) = (vec![], BTreeMap::new());
    for (at, line) in text.lines().enumerate() {
        if let Some(edits) = line.strip_prefix("i ") {
            image = edited(image, edits);
            continue;
        }
        let (question, wanted) = line.split_once(" | ").expect("a question and its answer");
        let numbers: Vec<u64> = question.split(' ').map(number).collect();
        let answer = carried(image.clone(), numbers[0] as u32, numbers[1] as u32, numbers[2], numbers[3]);
        let expected = match wanted.strip_prefix("r ") {
            Some(refusal) => (Carried { is_image: 1, number: refusal.parse().expect("a number") }, image.clone()),
            None if wanted == "none" => (Carried::default(), image.clone()),
            None => (Carried { is_image: 1, number: 0 }, edited(image.clone(), wanted)),
        };
        assert_eq!(answer, expected, "line {}: {line}", at + 1);
        *seen.entry((expected.0.is_image, expected.0.number, expected.1 == image)).or_insert(0) += 1;
    }
    let kinds: Vec<_> = seen.keys().copied().collect();
    let refused = [13, 14, 15, 16].map(|number| (1, number, true));
    assert_eq!(kinds, [&[(0, 0, true), (1, 0, false), (1, 0, true)][..], &refused].concat(), "every answer occurs: {seen:?}");
}

/// The two save sizes that the guest of a processor reads.
fn save_sizes(seen: &Table) -> [u32; 2] {
    [0, 1].map(|subleaf| seen.row(0xD, Some(subleaf)).expect("a required row").ebx)
}

/// What becomes of the table of a page set: the answer of carrying it from 1 to 2, and whether that changes it.
fn moved(pages: &[u8], secure_avic: bool, processor: Processor) -> Option<(u32, bool)> {
    let options = |edition| Options::new().secure_avic(secure_avic).edition(edition);
    let running = build(pages, options(1)).ok()?;
    let old = guest(pages, options(1), processor);
    let Processor { xcr0, xss, .. } = processor;
    for edition in [1, 2] {
        let table = build(pages, options(edition)).expect("accepted under one edition, accepted under the other");
        assert_eq!(table.carry(edition, edition, xcr0, xss), old.clone().map(|_| table));
    }
    assert_eq!(running.carry(2, 1, xcr0, xss), Err(Refusal::EditionBack));
    assert_eq!(running.carry(1, 3, xcr0, xss), Err(Refusal::UnknownEdition));
    match running.carry(1, 2, xcr0, xss) {
        Err(refusal) => {
            assert_eq!(old, Err(refusal));
            Some((refusal.number(), false))
        }
        Ok(table) => {
            assert_eq!(Ok(&table), build(pages, options(2)).as_ref());
            let new = guest(pages, options(2), processor).expect("not refused under edition 1");
            assert_eq!(save_sizes(&old.expect("carried")), save_sizes(&new));
            Some((0, table != running))
        }
    }
}

/// "The new table must equal what edition 2 would have made of the original pages, and the guest's two save sizes stay what they were."
#[test]
fn a_running_table_becomes_edition_2s() {
    let text = std::fs::read_to_string("tests/guest.txt").expect("the list");
    let (mut pages, mut seen) = (shipped(), BTreeMap::new());
    for line in text.lines() {
        if let Some(edits) = line.strip_prefix("p ") {
            pages = edited(pages, edits);
            continue;
        }
        let words: Vec<&str> = line.split(' ').collect();
        let processor = Processor::new(number(words[3]) as u32).xcr0(number(words[4])).xss(number(words[5])).osxsave(words[6] == "1");
        if let Some(told) = moved(&pages, words[1] == "1", processor) {
            *seen.entry(told).or_insert(0) += 1;
        }
    }
    assert_eq!(seen.keys().copied().collect::<Vec<_>>(), [(0, false), (0, true), (13, false), (14, false)], "{seen:?}");
}

#[test]
fn words() {
    assert_eq!(NotCarried::NotAnImage.to_string(), "the bytes are no table's image");
    assert_eq!(NotCarried::Refused(Refusal::EditionBack).to_string(), "a table does not go from edition 2 of the AVX rule back to edition 1");
}
