//! Replays nearest.txt, whose answers are those of the model (tests/lists/make_nearest.py writes it and says how a line reads); and of each set the
//! flipped copy, and copies with an earlier bit flipped, by building them.

mod replay;

use replay::{edited, shipped};
use snp_cpuid::exports::{Nearest, snp_cpuid_nearest};
use snp_cpuid::{Bit, Options, PAGE_BYTES, Refusal, Register, build, nearest};
use std::collections::BTreeMap;

const REGISTERS: [Register; 4] = [Register::Eax, Register::Ebx, Register::Ecx, Register::Edx];

/// The answer in the words of the list; the crate's function and the exported one tell the same, and the pages stay as they are.
fn answered(pages: &[u8], options: Options) -> String {
    let lent = pages.to_vec();
    // SAFETY: the pointer and length are those of a vector's bytes, which the function only reads
    let numbers = unsafe { snp_cpuid_nearest(lent.as_ptr(), lent.len(), options.secure_avic, options.edition) };
    assert_eq!(lent, pages);
    match nearest(pages, options) {
        Ok(Bit { page, entry, register, bit }) => {
            let told = Nearest { entry: entry as u32, page: page as u64, register_index: register as u32, bit, ..Nearest::default() };
            assert_eq!(numbers, told);
            format!("b {page} {entry} {} {bit}", register as u32)
        }
        Err(refusal) => {
            let details = refusal.details();
            let (has_subleaf, subleaf) = (details.subleaf.is_some() as u32, details.subleaf.unwrap_or(0));
            let told = Nearest { number: refusal.number(), leaf: details.leaf, has_subleaf, subleaf, s: details.s.into(), ..Nearest::default() };
            assert_eq!(numbers, told);
            format!("r {} {:x} {} {}", refusal.number(), details.leaf, details.subleaf.map_or("-".into(), |k| format!("{k:x}")), details.s)
        }
    }
}

/// Each page set of the list with its questions: the options, and the wanted answer.
fn asked() -> Vec<(Vec<u8>, Options, String)> {
    let text = std::fs::read_to_string("tests/nearest.txt").expect("the list");
    let (mut pages, mut all) = (shipped(), vec![]);
    for line in text.lines() {
        if let Some(edits) = line.strip_prefix("p ") {
            pages = edited(pages, edits);
            continue;
        }
        let (question, wanted) = line.split_once(" | ").expect("a question and its answer");
        let (avic, edition) = question.split_once(' ').expect("two choices");
        let options = Options::new().secure_avic(avic == "1").edition(u32::from_str_radix(edition, 16).expect("an edition"));
        all.push((pages.clone(), options, wanted.to_string()));
    }
    all
}

#[test]
fn answers_are_the_models() {
    let mut seen = BTreeMap::new();
    for (number, (pages, options, wanted)) in asked().into_iter().enumerate() {
        assert_eq!(answered(&pages, options), wanted, "question {}", number + 1);
        let kind = if wanted.starts_with('b') { wanted.split(' ').nth(3) } else { wanted.split(' ').nth(1) };
        *seen.entry((wanted[..1].to_string(), kind.expect("a word").to_string())).or_insert(0) += 1;
    }
    let kinds: Vec<_> = seen.keys().map(|(kind, word)| format!("{kind} {word}")).collect();
    assert_eq!(kinds, ["b 0", "b 1", "b 2", "b 3", "r 1", "r 15", "r 17", "r 2", "r 20"], "every answer occurs: {seen:?}");
}

/// Every bit before one, in order, of a page set whose length and counts are lawful.
fn bits(pages: &[u8]) -> impl Iterator<Item = Bit> + '_ {
    let count = |page: usize| u32::from_le_bytes(pages[PAGE_BYTES * page..][..4].try_into().expect("four bytes")) as usize;
    let entries = (0..pages.len() / PAGE_BYTES).flat_map(move |page| (0..count(page)).map(move |entry| (page, entry)));
    entries.flat_map(|(page, entry)| (0..128).map(move |n| Bit { page, entry, register: REGISTERS[n as usize / 32], bit: n % 32 }))
}

/// By building alone, without the library's search: the bit changes the answer, none before it does, and where there is none, none does.
#[test]
fn no_bit_before_it_changes_the_answer() {
    let mut tried = 0;
    for (pages, options, _) in asked() {
        let (answer, found) = (build(&pages, options), nearest(&pages, options));
        if found.is_err_and(|refusal| refusal != Refusal::NothingDecides) {
            assert_eq!(answer.err(), found.err());
            continue;
        }
        let mut flipped = pages.clone();
        let changes = |bit: &Bit| {
            bit.flip(&mut flipped);
            let changed = build(&flipped, options) != answer;
            bit.flip(&mut flipped);
            tried += 1;
            changed
        };
        assert_eq!(bits(&pages).find(changes), found.ok());
    }
    assert!(tried > 20_000, "{tried} flips");
}
