//! The fixed list: a sample of the Rust's answers, one page set for each kind of answer of each family. The gate replays it with no Rust at
//! hand: tests/lists/make_vectors.py hands it to crates/vectors.

use std::collections::BTreeSet;
use std::fmt::Write;

use oracle::Answer;
use oracle::Refusal;
use oracle::Row;

use crate::check::Case;
use crate::families::FAMILIES;
use crate::pages;
use crate::run;

const HEAD: &str = "\
# Answers of the Rust, microsoft/openvmm ba105dd7f0, cvm_cpuid, to page sets of the differential run: for each family and each kind of answer the first
# set of the quick form. Made by `cargo run --release -p compare -- --list > list.txt` in differential/; no line is of the port.
#   n BYTES          the page set has so many bytes from now on; at first it is all zeros
#   d OFFSET BYTES   these bytes, in hex, go into it
#   b AVIC = ..      build: number, leaf, whether a subleaf is named, subleaf, s, rows, combined mask
#   w AVIC ROOM = .. write into so many bytes that hold A5h: number, leaf, .., s, length, and all of them after
";

/// The longest page set that crates/vectors holds.
const LONGEST: usize = 65_537;

/// Bytes lent beyond the image, which must stay.
const BEYOND: usize = 8;

const FILL: u8 = 0xa5;

/// Parts that are closer to each other are one.
const CLOSE: usize = 8;

/// What tells one set from another: a length at a page's boundary, the highest count from 64 up, for a refusal all that it names, for a table its
/// mask and its shift.
#[derive(PartialEq, Eq, PartialOrd, Ord)]
enum Kind {
    Length(usize),
    HighestCount(u32),
    Refusal(u32, u32, Option<u32>, u32),
    Mask(u64),
    Shift(u32),
}

pub fn list(seed: u64) -> String {
    let mut text = HEAD.to_string();
    let mut held = Vec::new();
    for family in &FAMILIES {
        let mut told = BTreeSet::new();
        for number in (0..family.cases).step_by(family.quick_step as usize) {
            let mut case = Case::default();
            run::make(family, seed, number, &mut case);
            forget_unread(&mut case.pages);
            let answer = oracle::answer(&case.pages, case.secure_avic);
            let before = told.len();
            told.extend(kinds(&case.pages, &answer));
            if told.len() > before && case.pages.len() <= LONGEST {
                tell(&mut text, &mut held, &case, &answer);
            }
        }
    }
    text
}

/// Bytes that nobody reads become 0, or the list would be long. The answer is asked for after this.
fn forget_unread(bytes: &mut Vec<u8>) {
    if bytes.len() % pages::PAGE == 0 {
        let counts: Vec<u32> = counts(bytes).collect();
        let set = pages::read(bytes);
        pages::write(&set, 0, bytes);
        for (page, count) in counts.into_iter().enumerate() {
            pages::set_count(bytes, page, count);
        }
    }
}

/// The counts of the whole pages.
fn counts(bytes: &[u8]) -> impl Iterator<Item = u32> {
    (0..bytes.len() / pages::PAGE).map(|page| pages::word(bytes, page * pages::PAGE))
}

fn kinds(bytes: &[u8], answer: &Answer) -> Vec<Kind> {
    let highest = counts(bytes).max().filter(|count| *count >= pages::MOST as u32);
    let at_boundary = [0, 1, pages::PAGE - 1].contains(&(bytes.len() % pages::PAGE));
    let mut kinds: Vec<Kind> = highest.map(Kind::HighestCount).into_iter().collect();
    kinds.extend(at_boundary.then_some(Kind::Length(bytes.len())));
    match answer {
        Answer::Table { rows, mask } => {
            let cores = rows.iter().find(|row| (row.leaf, row.subleaf) == (0xb, Some(1))).expect("B.1 is in every table");
            kinds.extend([Kind::Mask(*mask), Kind::Shift(cores.registers[0])]);
        }
        Answer::Refusal(Refusal { number, leaf, subleaf, s }) => kinds.push(Kind::Refusal(*number, *leaf, *subleaf, *s)),
        Answer::Unknown(text) => panic!("no answer known to document 01: {text}"),
    }
    kinds
}

fn tell(text: &mut String, held: &mut Vec<u8>, case: &Case, answer: &Answer) {
    if case.pages.len() != held.len() {
        writeln!(text, "n {}", case.pages.len()).unwrap();
        held.resize(case.pages.len(), 0);
    }
    for (from, to) in differences(held, &case.pages) {
        writeln!(text, "d {from} {}", hex(&case.pages[from..to])).unwrap();
    }
    held.clone_from(&case.pages);

    let avic = u8::from(case.secure_avic);
    let (rows, mask): (&[Row], u64) = match answer {
        Answer::Table { rows, mask } => (rows, *mask),
        _ => (&[], 0),
    };
    let numbers = numbers(answer);
    writeln!(text, "b {avic} = {numbers} {:016x} {mask:016x}", rows.len()).unwrap();
    let mut lent = image(rows);
    let length = lent.len();
    let room = length + BEYOND;
    lent.resize(room, FILL);
    writeln!(text, "w {avic} {room} = {numbers} {length:016x} {}", hex(&lent)).unwrap();
}

fn numbers(answer: &Answer) -> String {
    let refusal = match answer {
        Answer::Refusal(refusal) => *refusal,
        _ => Refusal::default(),
    };
    let named = u32::from(refusal.subleaf.is_some());
    [refusal.number, refusal.leaf, named, refusal.subleaf.unwrap_or(0), refusal.s].map(|number| format!("{number:016x}")).join(" ")
}

/// The image of rows that rise.
fn image(rows: &[Row]) -> Vec<u8> {
    let mut bytes = Vec::new();
    for row in rows {
        bytes.push(1 + u8::from(row.subleaf.is_some()));
        let words = [row.leaf].into_iter().chain(row.subleaf).chain(row.registers);
        bytes.extend(words.flat_map(u32::to_le_bytes));
    }
    bytes
}

fn differences(old: &[u8], new: &[u8]) -> Vec<(usize, usize)> {
    let mut parts: Vec<(usize, usize)> = Vec::new();
    for at in (0..new.len()).filter(|at| old[*at] != new[*at]) {
        match parts.last_mut() {
            Some((_, to)) if at < *to + CLOSE => *to = at + 1,
            _ => parts.push((at, at + 1)),
        }
    }
    parts
}

fn hex(bytes: &[u8]) -> String {
    bytes.iter().map(|byte| format!("{byte:02x}")).collect()
}
