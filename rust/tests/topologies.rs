//! Replays topologies.txt, whose answers are those of the model (tests/lists/make_topologies.py writes it and says how a line reads), through
//! building, and holds its accepted inputs against the library's list; and writes the list into buffers of every kind of length.

mod replay;

use snp_cpuid::{CpuidResult, Details, Options, Refusal, TOPOLOGIES_BYTES, Topology, build, topologies, write_topologies};

/// The offset of the first entry of a leaf on page 0.
fn place(pages: &[u8], leaf: u32) -> usize {
    (0..64).map(|position| 16 + 48 * position).find(|&at| pages[at..at + 4] == leaf.to_le_bytes()).expect("the leaf")
}

/// Puts a number into some bits of a register, EAX to EDX by 0 to 3, of a leaf's entry.
fn put(pages: &mut [u8], leaf: u32, register: usize, shift: u32, width: u32, value: u8) {
    let at = place(pages, leaf) + 24 + 4 * register;
    let old = u32::from_le_bytes(pages[at..at + 4].try_into().unwrap());
    let new = old & !(((1 << width) - 1) << shift) | u32::from(value) << shift;
    pages[at..at + 4].copy_from_slice(&new.to_le_bytes());
}

/// The shipped set with the five inputs.
fn with_inputs(shipped: &[u8], inputs: &Topology) -> Vec<u8> {
    let mut pages = shipped.to_vec();
    put(&mut pages, 0x80000008, 2, 12, 4, inputs.s);
    put(&mut pages, 0x80000008, 2, 0, 8, inputs.nc);
    put(&mut pages, 1, 1, 16, 8, inputs.lps);
    put(&mut pages, 1, 3, 28, 1, inputs.mt.into());
    put(&mut pages, 0x8000001E, 1, 8, 8, inputs.t);
    pages
}

/// A line's five inputs, and what it says after them.
fn parts(line: &str) -> (Topology, Vec<&str>) {
    let words: Vec<&str> = line.split(' ').collect();
    let byte = |place: usize| words[place].parse::<u8>().expect("a byte");
    (Topology { s: byte(0), nc: byte(1), lps: byte(2), mt: byte(3) == 1, t: byte(4) }, words[5..].to_vec())
}

fn registers(words: &[&str]) -> CpuidResult {
    let register = |place: usize| u32::from_str_radix(words[place], 16).expect("a register");
    CpuidResult { eax: register(0), ebx: register(1), ecx: register(2), edx: register(3) }
}

#[test]
fn every_listed_one_and_many_others_through_building() {
    let shipped = replay::shipped();
    let (mut listed, mut refused) = (vec![], 0);
    for line in include_str!("topologies.txt").lines() {
        let (inputs, words) = parts(line);
        let answer = build(&with_inputs(&shipped, &inputs), Options::new());
        if words[0] == "r" {
            let (number, s) = (words[1].parse::<u32>().unwrap(), words[2].parse().unwrap());
            let refusal = answer.expect_err(line);
            assert_eq!((refusal.number(), refusal.details()), (number, Details { s, ..Details::default() }), "{line}");
            refused += 1;
        } else {
            let table = answer.expect(line);
            let levels = [0, 1].map(|subleaf| table.lookup(0xB, Some(subleaf), true).expect("leaf Bh").result);
            assert_eq!(levels, [registers(&words), registers(&words[4..])], "{line}");
            listed.push(inputs);
        }
    }
    assert_eq!(listed, topologies());
    assert!(refused >= 9000);
}

#[test]
fn buffers() {
    let list: Vec<u8> = topologies().iter().flat_map(|i| [i.s, i.nc, i.lps, i.mt.into(), i.t]).collect();
    assert_eq!(list.len(), TOPOLOGIES_BYTES);
    for room in [0, 1, 4, 5, 2554, TOPOLOGIES_BYTES - 5, TOPOLOGIES_BYTES - 1] {
        let mut out = vec![0xA5; room];
        assert_eq!(write_topologies(&mut out), Err(Refusal::BufferTooShort));
        assert_eq!(out, vec![0xA5; room]);
    }
    for more in [0, 1, 5, 4096] {
        let mut out = vec![0xA5; TOPOLOGIES_BYTES + more];
        assert_eq!(write_topologies(&mut out), Ok(TOPOLOGIES_BYTES));
        assert_eq!(out, [&list[..], &vec![0xA5; more]].concat());
    }
}
