//! Replays lines.txt, whose answers are those of the model (tests/lists/make_lines.py writes it and says how a line reads), through the exported
//! functions and through `Refusal`; and holds what the header says of each number against the library. tests/data/messages.txt has refusals by their
//! lines, each with its message: here they are what `Refusal` displays, and tests/c/refusals.c holds them against snp_cpuid_message of the header.

mod replay;

use snp_cpuid::exports::{LineRead, LineWritten, snp_cpuid_read_line, snp_cpuid_write_line};
use snp_cpuid::{Details, NoSuchLine, Refusal};
use std::collections::{BTreeMap, BTreeSet};

/// The bytes of one word; - is none.
fn bytes(word: &str) -> Vec<u8> {
    replay::bytes(word.trim_matches('-'))
}

/// A refusal's number, leaf, subleaf and s, as the file has them.
fn details(words: &[&str]) -> (u32, u32, Option<u32>, u32) {
    let leaf = u32::from_str_radix(words[1], 16).expect("a leaf");
    (words[0].parse().expect("a number"), leaf, words[2].parse().ok(), words[3].parse().expect("s"))
}

fn write((number, leaf, subleaf, s): (u32, u32, Option<u32>, u32), out: &mut [u8]) -> LineWritten {
    // SAFETY: the pointer and length are those of a slice, and the function writes within it
    unsafe { snp_cpuid_write_line(number, leaf, subleaf.is_some(), subleaf.unwrap_or(0), s, out.as_mut_ptr(), out.len()) }
}

fn read(line: &[u8]) -> LineRead {
    // SAFETY: the pointer and length are those of a slice, which the function only reads
    unsafe { snp_cpuid_read_line(line.as_ptr(), line.len()) }
}

/// A line of the file that is to be written.
fn written(words: &[&str]) {
    let room: usize = words[4].parse().expect("a room");
    let mut buffer = vec![0x5A; room];
    let answer = write(details(words), &mut buffer);
    let (expected, after) = match words[5] {
        "none" => (LineWritten::default(), words[6]),
        "refusal" => (LineWritten { is_line: 1, number: words[6].parse().expect("a number"), length: 0 }, words[7]),
        _ => (LineWritten { is_line: 1, number: 0, length: words[6].parse().expect("a length") }, words[7]),
    };
    assert_eq!((answer, buffer), (expected, bytes(after)), "write {words:?}");
}

/// A line of the file that is to be read.
fn said(words: &[&str]) {
    let line = bytes(words[0]);
    if words[1] == "none" {
        assert_eq!((read(&line), Refusal::from_line(&line)), (LineRead::default(), Err(NoSuchLine)), "read {words:?}");
        return;
    }
    let (number, leaf, subleaf, s) = details(&words[1..]);
    let expected = LineRead { is_line: 1, number, leaf, has_subleaf: subleaf.is_some().into(), subleaf: subleaf.unwrap_or(0), s };
    assert_eq!(read(&line), expected, "read {words:?}");
    match Refusal::from_line(&line) {
        Ok(refusal) => {
            assert_eq!((refusal.number(), refusal.details()), (number, Details { leaf, subleaf, s: s as u8 }));
            assert_eq!(refusal.line().as_bytes(), line);
        }
        Err(NoSuchLine) => panic!("{number} has no name"),
    }
    assert!(Refusal::from_line(&line).is_ok());
}

#[test]
fn every_answer_is_the_models() {
    let text = std::fs::read_to_string("tests/lines.txt").expect("the file");
    let mut counts = BTreeMap::new();
    for line in text.lines() {
        let words: Vec<&str> = line.split(' ').collect();
        *counts.entry(words[0].to_string()).or_insert(0) += 1;
        match words[0] {
            "write" => written(&words[1..]),
            _ => said(&words[1..]),
        }
    }
    assert!(counts["write"] > 1000 && counts["read"] > 1000, "{counts:?}");
}

/// include/refusals.txt, "3 MissingRequiredResult leaf subleaf": a detail that is set has a line exactly where the number names it.
#[test]
fn the_list_says_what_each_number_names() {
    let list = std::fs::read_to_string("../include/refusals.txt").expect("the list");
    let mut told = BTreeMap::new();
    for line in list.lines().filter(|line| line.starts_with(|c: char| c.is_ascii_digit())) {
        let [number, _, details @ ..] = &line.split(' ').collect::<Vec<_>>()[..] else { panic!("{line}") };
        let number: u32 = number.parse().expect("a number");
        assert_eq!(told.insert(number, details.join(" ")), None, "{number} stands once");
    }
    for number in 0..300 {
        let is_line = |leaf, subleaf, s| write((number, leaf, subleaf, s), &mut [0; 22]).is_line == 1;
        let named: Vec<&str> = [("leaf", is_line(1, None, 0)), ("subleaf", is_line(0, Some(0), 0)), ("s", is_line(0, None, 1))]
            .iter()
            .filter(|n| n.1)
            .map(|n| n.0)
            .collect();
        let names = is_line(0, None, 0).then(|| named.join(" "));
        assert_eq!(told.get(&number), names.as_ref(), "{number}");
    }
}

#[test]
fn every_number_has_its_messages() {
    let text = std::fs::read_to_string("../tests/data/messages.txt").expect("the file");
    let mut numbers = BTreeSet::new();
    for line in text.lines() {
        let (said, message) = line.split_once(": ").expect("a refusal's line and its message");
        let refusal: Refusal = format!("{said}\n").parse().expect("a refusal's line");
        assert_eq!(refusal.to_string(), message, "{said}");
        numbers.insert(refusal.number());
    }
    let used = (0..300).filter(|&number| write((number, 0, None, 0), &mut [0; 22]).is_line == 1).collect();
    assert_eq!(numbers, used);
}
