//! A table in memory of any content, against a small model of what the library says it makes of it.

use snp_cpuid::exports::{self, snp_cpuid_table_find};
use snp_cpuid::{ANY_IMAGE_BYTES, ANY_KVM_BYTES, CpuidResult, Found, NotAnImage, Origin, PLACES, Refusal, Register, Row, Table, TableComparison};
use std::collections::{BTreeSet, HashSet};

/// A generator of numbers, the same in every run (Marsaglia, "Xorshift RNGs", 2003).
struct Numbers(u64);

impl Numbers {
    fn next(&mut self) -> u64 {
        self.0 ^= self.0 << 13;
        self.0 ^= self.0 >> 7;
        self.0 ^= self.0 << 17;
        self.0
    }

    fn below(&mut self, end: usize) -> usize {
        (self.next() % end as u64) as usize
    }
}

/// The places by tests/gate/leaves.py: the first leaf, how many follow each other, and how many subleaves each has where it has them.
const RUNS: [(u32, u32, Option<u32>); 10] = [
    (0x0, 2, None),
    (0x5, 1, None),
    (0x7, 1, Some(1)),
    (0xB, 1, Some(2)),
    (0xD, 1, Some(64)),
    (0x8000_0000, 9, None),
    (0x8000_000A, 1, None),
    (0x8000_0019, 2, None),
    (0x8000_001D, 1, Some(4)),
    (0x8000_001E, 2, None),
];

/// The leaves and subleaves of the places, rising.
fn places() -> Vec<(u32, Option<u32>)> {
    let rows = |leaf, subleaves: Option<u32>| match subleaves {
        None => vec![(leaf, None)],
        Some(many) => (0..many).map(|subleaf| (leaf, Some(subleaf))).collect(),
    };
    RUNS.into_iter().flat_map(|(leaf, leaves, subleaves)| (leaf..leaf + leaves).flat_map(move |leaf| rows(leaf, subleaves))).collect()
}

/// The place of a leaf and subleaf.
fn place(leaf: u32, subleaf: Option<u32>) -> usize {
    places().iter().position(|own| *own == (leaf, subleaf)).expect("a place")
}

/// Memory of random content, in which about one place of `gap` has no row.
fn random(numbers: &mut Numbers, gap: usize) -> exports::Table {
    let mut memory = exports::Table { registers: [0; 4 * PLACES], origins: [0; PLACES] };
    memory.registers.fill_with(|| numbers.next() as u32);
    memory.origins.fill_with(|| match numbers.below(gap) {
        0 => 0,
        1 => 1 + numbers.next() % 3,
        2 => numbers.next(),
        _ => 4 + numbers.next() % 1000,
    });
    memory
}

fn registers(memory: &exports::Table, place: usize) -> [u32; 4] {
    memory.registers[4 * place..4 * place + 4].try_into().unwrap()
}

fn result([eax, ebx, ecx, edx]: [u32; 4]) -> CpuidResult {
    CpuidResult { eax, ebx, ecx, edx }
}

fn origin(number: u64) -> Option<Origin> {
    match number {
        0 => None,
        1 => Some(Origin::MadeHere),
        2 => Some(Origin::Entry { page: 0, entry: 0 }),
        3 => Some(Origin::Unknown),
        _ => Some(Origin::Entry { page: ((number - 4) / 64) as usize, entry: ((number - 4) % 64) as usize }),
    }
}

fn rows(memory: &exports::Table) -> Vec<Row> {
    let at = |(place, (leaf, subleaf))| Some(Row { leaf, subleaf, result: result(registers(memory, place)), origin: origin(memory.origins[place])? });
    places().into_iter().enumerate().filter_map(at).collect()
}

fn mask(memory: &exports::Table) -> u64 {
    let [zero, one] = [0, 1].map(|subleaf| registers(memory, place(0xD, Some(subleaf))));
    u64::from(zero[0] | if one[0] & 0b1010 == 0b1010 { one[2] } else { 0 })
}

fn bytes(words: &[u32]) -> Vec<u8> {
    words.iter().flat_map(|word| word.to_le_bytes()).collect()
}

fn four(row: &Row) -> [u32; 4] {
    [row.result.eax, row.result.ebx, row.result.ecx, row.result.edx]
}

fn image(memory: &exports::Table) -> Vec<u8> {
    let one = |row: Row| match row.subleaf {
        None => [vec![1], bytes(&[row.leaf]), bytes(&four(&row))].concat(),
        Some(subleaf) => [vec![2], bytes(&[row.leaf, subleaf]), bytes(&four(&row))].concat(),
    };
    rows(memory).into_iter().flat_map(one).collect()
}

fn kvm(memory: &exports::Table) -> Vec<u8> {
    let rows = rows(memory);
    let one = |row: &Row| [&[row.leaf, row.subleaf.unwrap_or(0), row.subleaf.is_some() as u32][..], &four(row), &[0; 3]].concat();
    bytes(&[vec![rows.len() as u32, 0], rows.iter().flat_map(one).collect()].concat())
}

fn is_feature(leaf: u32, subleaf: Option<u32>, register: usize) -> bool {
    snp_cpuid::features::find(leaf, subleaf, register).is_some()
}

/// Whether a register of B's row is as wanted beside A's.
fn is_wanted(leaf: u32, subleaf: Option<u32>, register: usize, a: u32, b: u32) -> bool {
    match (leaf, subleaf, register) {
        (1, None, 3) => a & !b == 0 && (a ^ b) >> 28 & 1 == 0,
        (0xD, Some(0), 2) => a <= b,
        _ if is_feature(leaf, subleaf, register) => a & !b == 0,
        _ => a == b,
    }
}

fn compared(a: &exports::Table, b: &exports::Table) -> TableComparison {
    let further = |leaf, subleaf: Option<u32>| leaf == 0xD && subleaf.is_some_and(|k| k >= 2 && !mask(a) & mask(b) & 1 << k != 0);
    for (place, (leaf, subleaf)) in places().into_iter().enumerate() {
        let (of_a, of_b) = (registers(a, place), registers(b, place));
        let failing = (0..4).find(|&register| !is_wanted(leaf, subleaf, register, of_a[register], of_b[register]));
        match (a.origins[place] != 0, b.origins[place] != 0, failing) {
            (true, false, _) => return TableComparison::NoRow { leaf, subleaf },
            (false, true, _) if !further(leaf, subleaf) => return TableComparison::Beyond { leaf, subleaf },
            (true, true, Some(register)) => {
                let register = [Register::Eax, Register::Ebx, Register::Ecx, Register::Edx][register];
                return TableComparison::Differs { leaf, subleaf, register };
            }
            _ => {}
        }
    }
    if mask(a) & !mask(b) == 0 { TableComparison::Rises } else { TableComparison::MaskLacks }
}

/// Every place has its row, in the order of the image, and rows, counts and lookups are the model's.
#[test]
fn rows_and_lookups() {
    let mut numbers = Numbers(33);
    let all = random(&mut numbers, usize::MAX);
    assert_eq!((places().len(), rows(&all).len()), (PLACES, PLACES));
    for round in 0..200 {
        let memory = if round == 0 { all } else { random(&mut numbers, 3 + round % 4) };
        let table = Table::from(memory);
        let expected = rows(&memory);
        assert_eq!(table.rows().collect::<Vec<_>>(), expected);
        assert_eq!((table.row_count(), table.rows().len(), table.max_extended_state()), (expected.len(), expected.len(), mask(&memory)));
        let leaves = places().into_iter().map(|(leaf, _)| leaf).chain([2, 0xC, 0xE, 0x8000_0009, 0x8000_0020, u32::MAX]).collect::<BTreeSet<_>>();
        for leaf in leaves {
            for subleaf in [None, Some(0), Some(1), Some(3), Some(4), Some(63), Some(64), Some(u32::MAX)] {
                for enforce in [false, true] {
                    let has = places().iter().any(|own| own.0 == leaf && own.1.is_some());
                    let wanted = if has || enforce { subleaf } else { None };
                    let row = expected.iter().find(|row| (row.leaf, row.subleaf) == (leaf, wanted));
                    let found = row.map(|row| Found { result: row.result, origin: row.origin });
                    assert_eq!(table.lookup(leaf, subleaf, enforce), found, "{leaf:X} {subleaf:?} {enforce}");
                }
            }
        }
    }
}

/// A subleaf that is not named is not read.
#[test]
fn a_subleaf_that_is_not_named() {
    let memory = random(&mut Numbers(5), 4);
    for leaf in [1, 7, 0xD] {
        // SAFETY: the two arrays are the memory's own
        let find = |subleaf| unsafe { snp_cpuid_table_find(memory.registers.as_ptr(), memory.origins.as_ptr(), leaf, false, subleaf, false) };
        assert_eq!(find(0), find(77));
    }
}

/// Images and lists are the model's; short room is refused and left, and an image read back is the same table of unknown origin.
#[test]
fn images_and_lists() {
    let mut numbers = Numbers(34);
    let mut lengths = BTreeSet::new();
    for round in 0..200 {
        let memory = random(&mut numbers, if round == 0 { usize::MAX } else { 3 + round % 4 });
        let table = Table::from(memory);
        assert_eq!(table.image(), image(&memory));
        let (mut out, list) = (vec![0xA5; ANY_KVM_BYTES + 1], kvm(&memory));
        assert_eq!(table.write_kvm(&mut out[..list.len() - 1]), Err(Refusal::BufferTooShort));
        assert_eq!(table.write_image(&mut out[..table.image().len() - 1]), Err(Refusal::BufferTooShort));
        assert!(out.iter().all(|&byte| byte == 0xA5));
        assert_eq!(table.write_kvm(&mut out), Ok(list.len()));
        assert!(out[..list.len()] == list && out[list.len()..].iter().all(|&byte| byte == 0xA5));
        let read = Table::try_from(&table.image()[..]).unwrap();
        assert_eq!(read.image(), table.image());
        assert!(read.rows().all(|row| row.origin == Origin::Unknown) && read.row_count() == table.row_count());
        // the registers of absent rows are zeros once read, and so is what D.0 and D.1 give the mask where they are absent
        let there = |subleaf| memory.origins[place(0xD, Some(subleaf))] != 0;
        assert_eq!(read == table, read.max_extended_state() == table.max_extended_state());
        assert!(!there(0) || !there(1) || read == table);
        assert_eq!(Table::try_from(&[&table.image()[..], &[0]].concat()[..]), Err(NotAnImage));
        lengths.insert(table.image().len());
    }
    assert_eq!(lengths.last(), Some(&ANY_IMAGE_BYTES));
    assert_eq!(kvm(&random(&mut numbers, usize::MAX)).len(), ANY_KVM_BYTES);
}

/// Comparing is the model's on pairs that differ in a little: features that go or come, values, rows, the save area and states.
#[test]
fn comparisons() {
    let mut numbers = Numbers(36);
    let mut seen = [0; 5];
    for round in 0..4000 {
        let a = random(&mut numbers, 4);
        let mut b = a;
        for _ in 0..1 + round % 4 {
            changed(&mut numbers, &mut b);
        }
        let (a, b) = if round % 2 == 0 { (a, b) } else { (b, a) };
        let answer = Table::from(a).compare(&Table::from(b));
        assert_eq!(answer, compared(&a, &b));
        seen[match answer {
            TableComparison::Rises => 0,
            TableComparison::NoRow { .. } => 1,
            TableComparison::Differs { .. } => 2,
            TableComparison::Beyond { .. } => 3,
            _ => 4,
        }] += 1;
    }
    assert!(seen.iter().all(|&count| count > 20), "{seen:?}");
}

/// One change: a bit of a feature register or of any, a row more or less, a larger save area, a state with its row.
fn changed(numbers: &mut Numbers, memory: &mut exports::Table) {
    let all = places();
    let features = (0..4 * PLACES).filter(|&at| is_feature(all[at / 4].0, all[at / 4].1, at % 4)).collect::<Vec<_>>();
    let (at, bit) = (features[numbers.below(features.len())], 1 << numbers.below(32));
    match numbers.below(8) {
        0..3 => memory.registers[at] ^= bit,
        3 => memory.registers[numbers.below(4 * PLACES)] ^= bit,
        4 => memory.origins[numbers.below(PLACES)] = 0,
        5 => memory.origins[numbers.below(PLACES)] = 3,
        6 => memory.registers[4 * place(0xD, Some(0)) + 2] |= bit,
        _ => {
            let state = 2 + numbers.below(30);
            memory.registers[4 * place(0xD, Some(0))] |= 1 << state;
            memory.origins[place(0xD, Some(state as u32))] = 1;
        }
    }
}

/// Where rows came from does not count, nor what stands where there is no row, but in the mask.
#[test]
fn sameness() {
    let mut numbers = Numbers(37);
    let (mut same, mut kept) = (0, HashSet::new());
    for _ in 0..400 {
        let a = random(&mut numbers, 4);
        let mut b = a;
        b.origins.iter_mut().filter(|origin| **origin != 0).for_each(|origin| *origin = 1 + numbers.next() % 1000);
        let at = numbers.below(4 * PLACES);
        b.registers[at] ^= 1 << numbers.below(32);
        let equal = b.origins[at / 4] == 0 && mask(&a) == mask(&b);
        assert_eq!(Table::from(a) == Table::from(b), equal);
        kept.insert(Table::from(a));
        assert_eq!(kept.contains(&Table::from(b)), equal);
        same += u32::from(equal);
    }
    assert!(same > 20 && same < 300 && kept.len() == 400, "{same}");
}
