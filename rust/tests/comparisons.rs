//! Replays comparisons.txt, whose answers are those of the model (tests/lists/make_comparisons.py writes it and says how a line reads).

mod replay;

use snp_cpuid::{Comparison, Options, Origin, Refusal, compare, first_entry};
use std::collections::{BTreeMap, BTreeSet};

/// The shipped set with the edits of one word.
fn edited(word: &str) -> Vec<u8> {
    replay::edited(replay::shipped(), word)
}

fn place(leaf: u32, subleaf: Option<u32>) -> String {
    format!("{leaf:x} {}", subleaf.map_or("-".to_string(), |k| k.to_string()))
}

/// A refusal's number, leaf, subleaf and s, as the file has them.
fn details(refusal: Refusal) -> String {
    let (leaf, subleaf) = match refusal {
        Refusal::MissingRequiredResult(leaf, subleaf) => (leaf, subleaf),
        Refusal::ReservedBytes { leaf } => (leaf, None),
        _ => (0, None),
    };
    let s = match refusal {
        Refusal::TopologyInconsistent(snp_cpuid::TopologyError::Hyperthreading(s) | snp_cpuid::TopologyError::ProcessorCount(s)) => s,
        _ => 0,
    };
    format!("{} {} {s}", refusal.number(), place(leaf, subleaf))
}

fn told(answer: Comparison) -> (&'static str, String) {
    match answer {
        Comparison::Rises => ("rises", String::new()),
        Comparison::RefusedA(refusal) => ("refused-a", details(refusal)),
        Comparison::UnlawfulB(refusal) => ("unlawful-b", details(refusal)),
        Comparison::NoEntry { leaf, subleaf } => ("no-entry", place(leaf, subleaf)),
        Comparison::Differs { leaf, subleaf, register } => ("differs", format!("{} {}", place(leaf, subleaf), register.to_string().to_lowercase())),
        other => panic!("{other}"),
    }
}

/// Where the first entries stand of a leaf that the answer names.
fn entries(a: &[u8], b: &[u8], answer: Comparison) -> String {
    let (Comparison::NoEntry { leaf, subleaf } | Comparison::Differs { leaf, subleaf, .. }) = answer else { return String::new() };
    let [a, b] = [a, b].map(|pages| match first_entry(pages, leaf, subleaf.unwrap_or(0)).expect("compared pages are lawful") {
        Some(Origin::Entry { page, entry }) => format!("{page}:{entry}"),
        Some(other) => panic!("{other} is no entry"),
        None => "-".into(),
    });
    format!("{a} {b}")
}

#[test]
fn answers_are_the_models() {
    let text = std::fs::read_to_string("tests/comparisons.txt").expect("the list");
    let (mut seen, mut unlawful) = (BTreeMap::new(), BTreeSet::new());
    for (number, line) in text.lines().enumerate() {
        let mut words = line.splitn(5, ' ');
        let mut word = || words.next().expect("five words");
        let options = Options::new().secure_avic(word() == "1").edition(word().parse().expect("an edition"));
        let (a, b, wanted) = (edited(word()), edited(word()), word());
        let answer = compare(&a, &b, options);
        if let Comparison::UnlawfulB(refusal) = answer {
            unlawful.insert(refusal.number());
        }
        let (kind, details) = told(answer);
        assert_eq!(format!("{kind} {details} {}", entries(&a, &b, answer)).trim(), wanted, "line {}: {line}", number + 1);
        *seen.entry(kind).or_insert(0) += 1;
    }
    assert_eq!(seen.len(), 5, "every answer occurs: {seen:?}");
    assert!(unlawful.into_iter().eq([1, 2, 17]));
}

#[test]
fn texts_name_what_to_look_at() {
    let texts = |a: &str, b: &str| compare(&edited(a), &edited(b), Options::new()).to_string();
    assert_eq!(texts("-", "-"), "B has at least what A has");
    assert!(texts("#0", "-").starts_with("A is refused: the CPUID pages must be"));
    assert!(texts("-", "#1").starts_with("B's pages cannot be read: "));
    // byte 40 of the entry of leaf 1, the second of page 0
    let unclean = "an entry for leaf 1h has a reserved byte, one of its last eight, that is not zero";
    assert_eq!(texts("-", "@68:01"), format!("B's pages cannot be read: {unclean}"));
    assert_eq!(texts("@68:01", "-"), format!("A is refused: {unclean}"));
}
