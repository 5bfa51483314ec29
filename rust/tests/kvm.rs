//! Replays kvm.txt, whose answers are those of the model (tests/lists/make_kvm.py writes it and says how a line reads).

mod replay;

use replay::{bytes, edited, shipped};
use snp_cpuid::{Options, Refusal, read_kvm, write_kvm};
use std::collections::{BTreeMap, BTreeSet};

/// The list of one word.
fn listed(word: &str) -> Vec<u8> {
    let part = |part: &str| match part.split_once('*') {
        Some((hex, often)) => bytes(hex).repeat(often.parse().unwrap()),
        None => bytes(part.trim_start_matches('-')),
    };
    word.split('+').flat_map(part).collect()
}

fn told(answer: Result<usize, Refusal>) -> String {
    match answer {
        Ok(length) => format!("0:{length}"),
        Err(refusal) => {
            let details = refusal.details();
            let subleaf = details.subleaf.map_or("-".to_string(), |subleaf| subleaf.to_string());
            format!("{}:{:x}:{subleaf}:{}", refusal.number(), details.leaf, details.s)
        }
    }
}

fn digest(data: &[u8]) -> String {
    let number = data.iter().fold(0xCBF2_9CE4_8422_2325_u64, |number, &byte| (number ^ u64::from(byte)).wrapping_mul(0x100_0000_01B3));
    format!("{number:016x}")
}

#[test]
fn answers_and_lent_bytes_are_the_models() {
    let text = std::fs::read_to_string("tests/kvm.txt").expect("the list");
    let mut seen = BTreeMap::new();
    for (number, line) in text.lines().enumerate() {
        let words: Vec<&str> = line.split(' ').collect();
        let mut out;
        let (answer, wanted) = match words[..] {
            ["write", choice, edition, edits, room, ref wanted @ ..] => {
                out = vec![0xA5; room.parse().unwrap()];
                let options = Options::new().secure_avic(choice == "1").edition(edition.parse().unwrap());
                (write_kvm(&edited(shipped(), edits), options, &mut out), wanted)
            }
            ["read", parts, room, ref wanted @ ..] => {
                out = vec![0xA5; room.parse().unwrap()];
                (read_kvm(&listed(parts), &mut out), wanted)
            }
            _ => panic!("line {}: {line}", number + 1),
        };
        assert_eq!([told(answer), digest(&out)], wanted, "line {}: {line}", number + 1);
        *seen.entry((words[0].to_string(), answer.err().map_or(0, |refusal| refusal.number()))).or_insert(0) += 1;
    }
    let numbers = |kind: &str| seen.keys().filter(|(k, _)| k == kind).map(|(_, number)| *number).collect::<Vec<_>>();
    assert_eq!(numbers("write"), [0, 1, 2, 3, 4, 5, 6, 7, 8, 9, 15, 17]);
    // reading gives those that its documentation has, and each of them
    let list = std::fs::read_to_string("../include/refusals.txt").expect("the list");
    let order = list.lines().find_map(|line| line.strip_prefix("order rust/src/kvm.rs ")).expect("the order of reading");
    let given: BTreeSet<u32> = order.split(' ').map(|word| word.parse().expect("a number")).chain([0]).collect();
    assert_eq!(numbers("read"), given.into_iter().collect::<Vec<_>>());
}
