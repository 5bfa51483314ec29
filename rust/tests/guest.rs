//! Replays guest.txt, whose answers are those of the model (tests/lists/make_guest.py writes it and says how a line reads).

mod replay;

use replay::{edited, shipped};
use snp_cpuid::exports::snp_cpuid_guest_build;
use snp_cpuid::{Found, Options, Origin, Processor, Refusal, Table, build, guest, guest_lookup, write_guest_image};
use std::collections::BTreeMap;

fn number(text: &str) -> u64 {
    u64::from_str_radix(text, 16).unwrap()
}

fn subleaf(text: &str) -> Option<u32> {
    (text != "-").then(|| number(text) as u32)
}

fn refused(refusal: Refusal) -> String {
    let details = refusal.details();
    format!("r {} {:x} {} {}", refusal.number(), details.leaf, details.subleaf.map_or("-".into(), |k| format!("{k:x}")), details.s)
}

/// The row count, the mask and the six registers that differ.
fn figures(table: &Table) -> String {
    let row = |leaf, subleaf| table.row(leaf, subleaf).unwrap_or_default();
    let registers = [row(1, None).ebx, row(1, None).ecx, row(0xB, Some(0)).edx, row(0xB, Some(1)).edx, row(0xD, Some(0)).ebx, row(0xD, Some(1)).ebx];
    let registers: Vec<String> = registers.iter().map(|register| format!("{register:x}")).collect();
    format!("{} {:x} {}", table.rows().count(), table.max_extended_state(), registers.join(" "))
}

fn row(found: Option<Found>) -> String {
    let Some(Found { result: r, origin }) = found else { return "-".into() };
    let origin = match origin {
        Origin::MadeHere => "made".into(),
        Origin::Entry { page, entry } => format!("{page:x}:{entry:x}"),
        _ => "unknown".into(),
    };
    format!("{:x} {:x} {:x} {:x} {origin}", r.eax, r.ebx, r.ecx, r.edx)
}

/// What the library writes into a buffer of this room; bytes that it does not write stay.
fn written(pages: &[u8], options: Options, processor: Processor, room: usize) -> String {
    let mut out = vec![0xA5; room];
    let answer = write_guest_image(pages, options, processor, &mut out);
    let length = answer.unwrap_or(0);
    assert!(out[length..].iter().all(|&byte| byte == 0xA5));
    let image: String = out[..length].iter().map(|byte| format!("{byte:02x}")).collect();
    answer.map_or_else(refused, |length| format!("{length} {image}"))
}

/// The answer to one line's question.
fn answered(pages: &[u8], words: &[&str]) -> String {
    let options = Options::new().secure_avic(words[1] == "1").edition(number(words[2]) as u32);
    let processor = Processor::new(number(words[3]) as u32).xcr0(number(words[4])).xss(number(words[5])).osxsave(words[6] == "1");
    match words[0] {
        "b" => {
            let table = guest(pages, options, processor);
            if let (Ok(table), Ok(plain)) = (&table, build(pages, options)) {
                // the same rows from the same entries, and the count that the library itself gives
                let places = |table: &Table| table.rows().map(|row| (row.leaf, row.subleaf, row.origin)).collect::<Vec<_>>();
                assert_eq!(places(table), places(&plain));
                let Processor { x2apic, xcr0, xss, osxsave, .. } = processor;
                // SAFETY: the pointer and length are those of a slice
                let built =
                    unsafe { snp_cpuid_guest_build(pages.as_ptr(), pages.len(), options.secure_avic, options.edition, x2apic, xcr0, xss, osxsave) };
                assert_eq!(built.row_count as usize, table.rows().count());
            }
            table.map_or_else(refused, |table| figures(&table))
        }
        "l" => {
            let (leaf, subleaf, enforce) = (number(words[7]) as u32, subleaf(words[8]), words[9] == "1");
            let found = guest_lookup(pages, options, processor, leaf, subleaf, enforce);
            // the table that the crate reads from the image gives the same
            assert_eq!(guest(pages, options, processor).ok().and_then(|table| table.lookup(leaf, subleaf, enforce)), found);
            row(found)
        }
        "w" => written(pages, options, processor, words[7].parse().unwrap()),
        other => panic!("a line that begins with {other}"),
    }
}

#[test]
fn answers_are_the_models() {
    let text = std::fs::read_to_string("tests/guest.txt").expect("the list");
    let mut pages = shipped();
    let mut seen = BTreeMap::new();
    for (at, line) in text.lines().enumerate() {
        if let Some(edits) = line.strip_prefix("p ") {
            pages = edited(pages, edits);
            continue;
        }
        let (question, wanted) = line.split_once(" | ").expect("a question and its answer");
        assert_eq!(answered(&pages, &question.split(' ').collect::<Vec<_>>()), wanted, "line {}: {line}", at + 1);
        *seen.entry(wanted.strip_prefix("r ").map_or("given", |refusal| refusal.split(' ').next().unwrap()).to_string()).or_insert(0) += 1;
    }
    let kinds: Vec<&str> = seen.keys().map(String::as_str).collect();
    assert_eq!(kinds, ["1", "13", "14", "15", "17", "2", "3", "4", "5", "6", "7", "8", "9", "given"], "every answer occurs: {seen:?}");
}

/// Rows that no processor changes are the paravisor's, and the others but for what document 02 names.
#[test]
fn nothing_else_differs() {
    let pages = shipped();
    let plain = build(&pages, Options::new()).unwrap();
    let seen = guest(&pages, Options::new(), Processor::new(u32::MAX).xcr0(7).xss(0x1800)).unwrap();
    for (old, new) in plain.rows().zip(seen.rows()) {
        let mut expected = old;
        match (old.leaf, old.subleaf) {
            (1, None) => {
                expected.result.ebx |= 0xFF00_0000;
                expected.result.ecx &= !(1 << 27);
            }
            (0xB, Some(_)) => expected.result.edx = u32::MAX,
            (0xD, Some(0)) => expected.result.ebx = 832,
            (0xD, Some(1)) => expected.result.ebx = 872,
            _ => {}
        }
        assert_eq!(new, expected);
    }
}
