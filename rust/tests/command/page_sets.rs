//! Page sets: the shipped one, changed ones, and one with every bit.

use snp_cpuid::PAGE_BYTES;
use std::collections::BTreeMap;

/// Entries by leaf and subleaf.
pub type Entries = BTreeMap<(u32, u32), [u32; 4]>;

fn number(bytes: &[u8], at: usize) -> u32 {
    u32::from_le_bytes(bytes[at..at + 4].try_into().unwrap())
}

/// The rows of the shipped set's table: those of every table, and three of leaf Dh. Two are made here, and two more are made anew.
pub const EPYC_ROWS: usize = 29;

/// The entries of the shipped set (document 01, "Page bytes").
pub fn epyc() -> Entries {
    let pages = std::fs::read(super::run::EPYC).expect("the shipped page set");
    let mut entries = Entries::new();
    for page in pages.chunks(PAGE_BYTES) {
        for at in (0..number(page, 0) as usize).map(|i| 16 + 48 * i) {
            entries.insert((number(page, at), number(page, at + 4)), [24, 28, 32, 36].map(|r| number(page, at + r)));
        }
    }
    entries
}

/// One page with these entries in this order.
pub fn page<'a>(entries: impl IntoIterator<Item = (&'a (u32, u32), &'a [u32; 4])>) -> Vec<u8> {
    let (mut bytes, mut count) = (vec![0; 16], 0u32);
    for ((leaf, subleaf), registers) in entries {
        for number in [*leaf, *subleaf, 0, 0, 0, 0].iter().chain(registers).chain(&[0, 0]) {
            bytes.extend(number.to_le_bytes());
        }
        count += 1;
    }
    bytes[..4].copy_from_slice(&count.to_le_bytes());
    bytes.resize(PAGE_BYTES, 0);
    bytes
}

/// Two pages, leaf Dh on the second.
pub fn set(entries: &Entries) -> Vec<u8> {
    let (state, others): (Vec<_>, Vec<_>) = entries.iter().partition(|((leaf, _), _)| *leaf == 0xD);
    [page(others), page(state)].concat()
}

/// Where the first entry of a leaf and subleaf stands in a set, in the command's words.
pub fn position(pages: &[u8], leaf: u32, subleaf: u32) -> String {
    let first = pages.chunks(PAGE_BYTES).enumerate().find_map(|(page, bytes)| {
        let at = |entry: &u32| 16 + 48 * *entry as usize;
        let entry = (0..number(bytes, 0)).find(|entry| (number(bytes, at(entry)), number(bytes, at(entry) + 4)) == (leaf, subleaf))?;
        Some(format!("page {page} entry {entry}"))
    });
    first.expect("the set has this entry")
}

/// The shipped entries with one register changed; 0 is EAX.
pub fn with(leaf: u32, subleaf: u32, register: usize, change: impl Fn(u32) -> u32) -> Entries {
    let mut entries = epyc();
    let old = entries.get_mut(&(leaf, subleaf)).expect("the set has this entry");
    old[register] = change(old[register]);
    entries
}

/// The shipped entries without one.
pub fn without(leaf: u32, subleaf: u32) -> Entries {
    let mut entries = epyc();
    entries.remove(&(leaf, subleaf)).expect("the set has this entry");
    entries
}

/// The set with a reserved byte set, of the eight, in one entry of one page.
pub fn unclean(entries: &Entries, page: usize, position: usize, byte: usize) -> Vec<u8> {
    let mut bytes = set(entries);
    bytes[page * PAGE_BYTES + 16 + 48 * position + 40 + byte] = 1;
    bytes
}

/// The rows that building asks for.
pub const REQUIRED: [(u32, u32); 24] = [
    (0x1, 0),
    (0x5, 0),
    (0x7, 0),
    (0xB, 0),
    (0xB, 1),
    (0xD, 0),
    (0xD, 1),
    (0x8000_0001, 0),
    (0x8000_0002, 0),
    (0x8000_0003, 0),
    (0x8000_0004, 0),
    (0x8000_0005, 0),
    (0x8000_0006, 0),
    (0x8000_0007, 0),
    (0x8000_0008, 0),
    (0x8000_000A, 0),
    (0x8000_0019, 0),
    (0x8000_001A, 0),
    (0x8000_001D, 0),
    (0x8000_001D, 1),
    (0x8000_001D, 2),
    (0x8000_001D, 3),
    (0x8000_001E, 0),
    (0x8000_001F, 0),
];

/// Every bit reported: AVX-512 and CET with their states, 128 processors, two a core.
pub fn rich() -> Entries {
    let mut entries: Entries = REQUIRED.iter().map(|place| (*place, [u32::MAX; 4])).collect();
    for (component, size, offset) in [(2, 256, 576), (5, 64, 832), (6, 512, 896), (7, 1024, 1408), (11, 16, 0), (12, 24, 0)] {
        entries.insert((0xD, component), [size, offset, (component > 9) as u32, 0]);
    }
    topology(&mut entries, 7, 127, 128, 1, 1);
    entries
}

/// Every bit reported, and a state of D.0.EAX.
pub fn stated(xfem: u32) -> Vec<u8> {
    let mut entries = rich();
    entries.get_mut(&(0xD, 0)).unwrap()[0] = xfem;
    set(&entries)
}

/// The five topology inputs (document 01, "Corners of snp.rs").
pub fn topology(entries: &mut Entries, s: u32, nc: u32, lps: u32, mt: u32, t: u32) {
    let mut put = |leaf, register: usize, fields: u32, value: u32| {
        let registers = entries.get_mut(&(leaf, 0)).expect("a required row");
        registers[register] = registers[register] & !fields | value;
    };
    put(0x8000_0008, 2, 0xF0FF, s << 12 | nc);
    put(0x1, 1, 0xFF << 16, lps << 16);
    put(0x1, 3, 1 << 28, mt << 28);
    put(0x8000_001E, 1, 0xFF << 8, t << 8);
}
