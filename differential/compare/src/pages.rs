//! Page sets (document 01, "Page bytes"), from single entries up to whole sets.

use std::ops::Range;

pub const PAGE: usize = 4096;
pub const MOST: usize = 64;
pub const STATE: u32 = 0xd;

/// Registers by their place in a result.
pub const EAX: usize = 0;
pub const EBX: usize = 1;
pub const ECX: usize = 2;
pub const EDX: usize = 3;

#[derive(Clone, Copy, Debug, PartialEq, Eq)]
pub struct Entry {
    pub leaf: u32,
    pub subleaf: u32,
    pub registers: [u32; 4],
}

/// A list of entries for each page.
pub type Set = Vec<Vec<Entry>>;

/// Rows that building asks for, in the order of `COMMON_REQUIRED_LEAVES` and `SNP_REQUIRED_LEAVES`.
pub const REQUIRED: [(u32, u32); 24] = [
    (1, 0),
    (5, 0),
    (7, 0),
    (0xb, 0),
    (0xb, 1),
    (0x80000001, 0),
    (0x80000005, 0),
    (0x80000006, 0),
    (0x80000007, 0),
    (0x80000008, 0),
    (0x80000002, 0),
    (0x80000003, 0),
    (0x80000004, 0),
    (STATE, 0),
    (STATE, 1),
    (0x8000001f, 0),
    (0x8000000a, 0),
    (0x80000019, 0),
    (0x8000001a, 0),
    (0x8000001d, 0),
    (0x8000001d, 1),
    (0x8000001d, 2),
    (0x8000001d, 3),
    (0x8000001e, 0),
];

/// Components that a combined mask can have from 2 up.
pub const COMPONENTS: [u32; 6] = [2, 5, 6, 7, 11, 12];

pub fn minimal() -> Set {
    let entries = REQUIRED.map(|(leaf, subleaf)| Entry { leaf, subleaf, registers: [0, if leaf == 0x80000008 { 1 << 3 } else { 0 }, 0, 0] });
    spread(&entries)
}

/// Every bit reported: AVX-512 and CET with their states at AMD's sizes and places, 128 processors, two a core.
pub fn rich() -> Set {
    let mut entries = REQUIRED.map(|(leaf, subleaf)| Entry { leaf, subleaf, registers: [u32::MAX; 4] }).to_vec();
    let sizes = [(2, 256, 576), (5, 64, 832), (6, 512, 896), (7, 1024, 1408), (9, 8, 2432), (11, 16, 0), (12, 24, 0)];
    entries.extend(sizes.map(|(subleaf, size, start)| Entry { leaf: STATE, subleaf, registers: [size, start, (subleaf > 9).into(), 0] }));
    let mut set = spread(&entries);
    set_topology(&mut set, [7, 127, 128, 1, 1]);
    set
}

/// The pages of an EPYC Milan.
pub fn milan() -> Set {
    read(include_bytes!("../../../tests/data/epyc-milan.pages"))
}

/// Two pages; leaf Dh counts only on page 1.
pub fn spread(entries: &[Entry]) -> Set {
    let (state, others) = entries.iter().partition(|entry| entry.leaf == STATE);
    vec![others, state]
}

pub fn entry(set: &mut Set, leaf: u32, subleaf: u32) -> &mut Entry {
    set.iter_mut().flatten().find(|entry| (entry.leaf, entry.subleaf) == (leaf, subleaf)).expect("the set has this entry")
}

pub fn remove(set: &mut Set, leaf: u32, subleaf: u32) {
    for page in set {
        page.retain(|entry| (entry.leaf, entry.subleaf) != (leaf, subleaf));
    }
}

/// s, nc, lps, mt and t of document 01, "Corners of snp.rs"; all other bits stay.
pub fn set_topology(set: &mut Set, [s, nc, lps, mt, t]: [u32; 5]) {
    let mut place = |leaf, register: usize, fields: u32, value: u32| {
        let old = &mut entry(set, leaf, 0).registers[register];
        *old = *old & !fields | value;
    };
    place(0x80000008, ECX, 0xf0ff, s << 12 | nc);
    place(1, EBX, 0xff << 16, lps << 16);
    place(1, EDX, 1 << 28, mt << 28);
    place(0x8000001e, EBX, 0xff << 8, t << 8);
}

/// Where an entry of a page begins.
pub fn place(page: usize, position: usize) -> usize {
    page * PAGE + 16 + 48 * position
}

/// The words of an entry that the Rust reads, by their place in it: the two IN numbers and the four results.
pub const WORDS: [usize; 6] = [0, 4, 24, 28, 32, 36];

/// The reserved bytes of an entry, by their place in it.
pub const RESERVED: Range<usize> = 40..48;

/// The pages as bytes; `fill` stands wherever the Rust does not read.
pub fn write(set: &Set, fill: u8, bytes: &mut Vec<u8>) {
    bytes.clear();
    bytes.resize(set.len() * PAGE, fill);
    for (number, page) in set.iter().enumerate() {
        set_count(bytes, number, page.len() as u32);
        for (position, entry) in page.iter().enumerate().take(MOST) {
            let [eax, ebx, ecx, edx] = entry.registers;
            let words = [entry.leaf, entry.subleaf, eax, ebx, ecx, edx];
            for (at, word) in WORDS.iter().zip(words) {
                set_word(bytes, place(number, position) + at, word);
            }
        }
    }
}

pub fn read(bytes: &[u8]) -> Set {
    (0..bytes.len() / PAGE)
        .map(|page| {
            let count = (word(bytes, page * PAGE) as usize).min(MOST);
            (0..count)
                .map(|position| {
                    let [leaf, subleaf, registers @ ..] = WORDS.map(|at| word(bytes, place(page, position) + at));
                    Entry { leaf, subleaf, registers }
                })
                .collect()
        })
        .collect()
}

/// The leaf of the first entry below its page's count, in page and entry order, with a reserved byte that is not zero. No count may be above 64.
pub fn first_unclean(bytes: &[u8]) -> Option<u32> {
    let mut entries = (0..bytes.len() / PAGE).flat_map(|page| (0..word(bytes, page * PAGE) as usize).map(move |position| place(page, position)));
    entries.find(|at| bytes[*at..][RESERVED] != [0; 8]).map(|at| word(bytes, at))
}

/// Takes an entry away; those after it move up.
pub fn remove_at(bytes: &mut [u8], page: usize, position: usize) {
    let count = (word(bytes, page * PAGE) as usize).min(MOST);
    if position < count {
        bytes.copy_within(place(page, position + 1)..place(page, MOST), place(page, position));
        bytes[place(page, MOST - 1)..place(page, MOST)].fill(0);
        set_count(bytes, page, count as u32 - 1);
    }
}

/// Zero in every reserved byte of an entry below its page's count; pages of no lawful length or counts stay as they are.
pub fn clean(bytes: &mut [u8]) {
    if !bytes.len().is_multiple_of(PAGE) || bytes.chunks(PAGE).any(|page| word(page, 0) as usize > MOST) {
        return;
    }
    for page in bytes.chunks_mut(PAGE) {
        for position in 0..word(page, 0) as usize {
            page[place(0, position)..][RESERVED].fill(0);
        }
    }
}

pub fn word(bytes: &[u8], at: usize) -> u32 {
    u32::from_le_bytes(std::array::from_fn(|byte| bytes[at + byte]))
}

pub fn set_word(bytes: &mut [u8], at: usize, word: u32) {
    bytes[at..at + 4].copy_from_slice(&word.to_le_bytes());
}

pub fn set_count(bytes: &mut [u8], page: usize, count: u32) {
    set_word(bytes, page * PAGE, count);
}
