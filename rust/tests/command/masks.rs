//! The command's table of kept leaves and masks, held against the library.

use crate::features::FEATURES;
use crate::masks::{kept, required};
use crate::page_sets::{EPYC_ROWS, Entries, REQUIRED, page, rich, set};
use snp_cpuid::{Comparison, Options, Refusal, build, compare, first_entry};

/// Leaves with a reason to be tried: all kept ones, their neighbours, and numbers at the ends.
const TRIED: [u32; 44] = [
    0,
    1,
    2,
    3,
    4,
    5,
    6,
    7,
    8,
    9,
    0xA,
    0xB,
    0xC,
    0xD,
    0xE,
    0xF,
    0x10,
    0x14,
    0x1F,
    0x80,
    0x4000_0000,
    0x7FFF_FFFF,
    0x8000_0000,
    0x8000_0001,
    0x8000_0002,
    0x8000_0003,
    0x8000_0004,
    0x8000_0005,
    0x8000_0006,
    0x8000_0007,
    0x8000_0008,
    0x8000_0009,
    0x8000_000A,
    0x8000_000B,
    0x8000_0018,
    0x8000_0019,
    0x8000_001A,
    0x8000_001B,
    0x8000_001C,
    0x8000_001D,
    0x8000_001E,
    0x8000_001F,
    0x8000_0020,
    u32::MAX,
];

/// The library finds a first entry of exactly the leaves and subleaves that are kept; where a leaf has no subleaves, of any ECX_IN.
#[test]
fn kept_are_those_that_the_library_finds() {
    let mut found = 0;
    for leaf in TRIED {
        for subleaf in (0..70).chain([0x100, u32::MAX]) {
            let pages = [page([]), page([(&(leaf, subleaf), &[0; 4])])].concat();
            let first = first_entry(&pages, leaf, subleaf).unwrap();
            assert_eq!(first.is_some(), kept(leaf, subleaf).is_some(), "{leaf:X}.{subleaf:X}");
            // found under another subleaf too, exactly where the leaf has none
            let other = first_entry(&pages, leaf, subleaf ^ 1).unwrap();
            assert_eq!(other.is_some(), kept(leaf, subleaf).is_some_and(|kept| kept.subleaf.is_none()), "{leaf:X}.{subleaf:X}");
            found += usize::from(first.is_some());
        }
    }
    // the leaves without subleaves, by 72 numbers; 7.0, B.0, B.1, 64 of Dh, of which two are required, four of 8000001Dh
    let whole = REQUIRED.len() - (1 + 2 + 2 + 4);
    assert_eq!(found, whole * 72 + 1 + 2 + 64 + 4);
}

/// Without any one of them, and with all others, the library refuses by 3 and names it.
#[test]
fn required_are_those_that_the_library_asks_for() {
    let ours: Vec<(u32, u32)> = required().map(|(leaf, subleaf)| (leaf, subleaf.unwrap_or(0))).collect();
    assert_eq!(ours, REQUIRED);
    for (leaf, subleaf) in required() {
        let mut entries = rich();
        entries.remove(&(leaf, subleaf.unwrap_or(0))).unwrap();
        assert_eq!(build(&set(&entries), Options::new()), Err(Refusal::MissingRequiredResult(leaf, subleaf)));
    }
}

/// Comparing asks of masked entries: one has a bit, the other does not, and the answer is no exactly where the mask has the bit. Every bit of every
/// register is tried but those that comparing leaves free: D.0.ECX, leaf Bh, and the two bits of D.0.EAX that are always set.
#[test]
fn masks_are_those_of_the_library() {
    let mut tried = 0;
    for secure_avic in [false, true] {
        let options = Options::new().secure_avic(secure_avic);
        let free = |leaf, subleaf, register, bit| leaf == 0xB || (leaf, subleaf) == (0xD, 0) && (register == 2 || (register == 0 && bit < 2));
        for (leaf, subleaf) in rich().into_keys() {
            let kept = kept(leaf, subleaf).expect("a set of kept entries");
            for (register, bit) in (0..4).flat_map(|register| (0..32).map(move |bit| (register, bit))) {
                if free(leaf, subleaf, register, bit) {
                    continue;
                }
                // a bit that no accepted set has, of the threads per unit, is B's: it must be equal
                let a = accepted_with(leaf, subleaf, register, bit).unwrap_or_else(rich);
                let mut b = a.clone();
                b.get_mut(&(leaf, subleaf)).unwrap()[register] ^= 1 << bit;
                let no = compare(&set(&a), &set(&b), options) != Comparison::Rises;
                assert_eq!(kept.mask(register, secure_avic) >> bit & 1 == 1, no, "{leaf:X}.{subleaf:X} {register} bit {bit}");
                tried += 1;
            }
        }
    }
    // 128 bits of an entry for each row of a table with six states, but the two made here; free are B.0 and B.1, D.0.ECX and two bits
    assert_eq!(tried, 2 * ((EPYC_ROWS + 3 - 2) * 128 - 2 * 128 - 32 - 2));
}

/// Entries that the library accepts in which this bit is set.
fn accepted_with(leaf: u32, subleaf: u32, register: usize, bit: u32) -> Option<Entries> {
    let candidates = [(7, 127, 128, 1, 1), (8, 255, 255, 1, 1), (15, 255, 255, 1, 1), (15, 255, 255, 1, 0)];
    candidates.into_iter().find_map(|(s, nc, lps, mt, t)| {
        let mut entries = rich();
        crate::page_sets::topology(&mut entries, s, nc, lps, mt, t);
        entries.get_mut(&(leaf, subleaf)).unwrap()[register] |= 1 << bit;
        build(&set(&entries), Options::new()).is_ok().then_some(entries)
    })
}

/// A name for every bit of a masked feature register, so that a bit that stands in the way can be named.
#[test]
fn masked_feature_bits_have_names() {
    for f in &FEATURES {
        let named = f.bits.iter().fold(0u32, |mask, (bit, _)| mask | 1 << bit);
        assert_eq!(kept(f.leaf, f.subleaf.unwrap_or(0)).unwrap().mask(f.register, true) & !named, 0);
    }
}
