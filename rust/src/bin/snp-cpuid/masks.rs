//! What a table reads of an entry: which leaves and subleaves it keeps, and the mask of each register. tests/command/masks.rs holds every bit of it
//! against the library.

use crate::features::{ECX, FEATURES};
use crate::fields::FIELDS;

/// The part of a register that is kept.
#[derive(Clone, Copy)]
enum Mask {
    Whole,
    /// the bits and fields that have a name in features.rs or fields.rs
    Named,
    Nothing,
}

use Mask::{Named, Nothing, Whole};

/// Leaves that are kept alike, each with the same subleaves.
struct Line {
    leaves: (u32, u32),
    /// the subleaves; none for leaves without, whose entries count for any ECX_IN
    subleaves: Option<(u32, u32)>,
    registers: [Mask; 4],
}

const fn leaf(leaf: u32, registers: [Mask; 4]) -> Line {
    Line { leaves: (leaf, leaf), subleaves: None, registers }
}

const fn subleaves(leaf: u32, first: u32, last: u32, registers: [Mask; 4]) -> Line {
    Line { leaves: (leaf, leaf), subleaves: Some((first, last)), registers }
}

/// The subleaves of leaf Dh from here on are wanted only where a table has their state.
const FIRST_STATE: u32 = 2;

const LINES: [Line; 16] = [
    leaf(0x1, [Named; 4]),
    leaf(0x5, [Whole; 4]),
    subleaves(0x7, 0, 0, [Whole, Named, Named, Named]),
    subleaves(0xB, 0, 1, [Whole; 4]),
    subleaves(0xD, 0, 0, [Named, Whole, Whole, Nothing]),
    subleaves(0xD, 1, 1, [Named, Whole, Named, Nothing]),
    subleaves(0xD, FIRST_STATE, 63, [Whole; 4]),
    leaf(0x8000_0001, [Named; 4]),
    Line { leaves: (0x8000_0002, 0x8000_0007), subleaves: None, registers: [Whole; 4] },
    leaf(0x8000_0008, [Named; 4]),
    leaf(0x8000_000A, [Named, Nothing, Nothing, Nothing]),
    leaf(0x8000_0019, [Whole, Whole, Nothing, Nothing]),
    leaf(0x8000_001A, [Named, Nothing, Nothing, Nothing]),
    subleaves(0x8000_001D, 0, 3, [Whole; 4]),
    leaf(0x8000_001E, [Whole, Whole, Whole, Nothing]),
    leaf(0x8000_001F, [Named, Named, Whole, Whole]),
];

/// A row that a table may have, and what it keeps of the row's entry.
#[derive(Clone, Copy)]
pub struct Kept {
    pub leaf: u32,
    /// the subleaf; none for a leaf without
    pub subleaf: Option<u32>,
    registers: [Mask; 4],
}

/// What a table keeps of an entry with this EAX_IN and ECX_IN; nothing where no table reads it.
pub fn kept(eax_in: u32, ecx_in: u32) -> Option<Kept> {
    let within = |(first, last): (u32, u32), number: u32| (first..=last).contains(&number);
    let line = LINES.iter().find(|line| within(line.leaves, eax_in) && line.subleaves.is_none_or(|all| within(all, ecx_in)))?;
    Some(Kept { leaf: eax_in, subleaf: line.subleaves.map(|_| ecx_in), registers: line.registers })
}

/// The rows that every table has an entry for, in the order of a table: leaf and subleaf.
pub fn required() -> impl Iterator<Item = (u32, Option<u32>)> {
    let always = LINES.iter().filter(|line| line.subleaves.is_none_or(|(first, _)| (line.leaves.0, first) != (0xD, FIRST_STATE)));
    always.flat_map(|line| {
        let (first, last) = line.subleaves.unwrap_or_default();
        let subleaves = move |leaf| (first..=last).map(move |subleaf| (leaf, line.subleaves.map(|_| subleaf)));
        (line.leaves.0..=line.leaves.1).flat_map(subleaves)
    })
}

impl Kept {
    /// The mask of a register. The secure-AVIC bit is kept where that was chosen.
    pub fn mask(&self, register: usize, secure_avic: bool) -> u32 {
        match self.registers[register] {
            Whole => u32::MAX,
            Nothing => 0,
            Named => self.named(register) & !self.not_reported(register, secure_avic),
        }
    }

    /// An entry's registers as the table's rules find them.
    pub fn masked(&self, registers: [u32; 4], secure_avic: bool) -> [u32; 4] {
        [0, 1, 2, 3].map(|register| registers[register] & self.mask(register, secure_avic))
    }

    fn named(&self, register: usize) -> u32 {
        let place = (self.leaf, self.subleaf, register);
        let features = FEATURES.iter().filter(|f| (f.leaf, f.subleaf, f.register) == place).flat_map(|f| f.bits.iter().map(|(bit, _)| 1 << bit));
        let fields = FIELDS.iter().filter(|f| (f.leaf, f.subleaf, f.register) == place).map(|f| ((1 << f.width) - 1) << f.low);
        features.chain(fields).fold(0, |mask, bits: u32| mask | bits)
    }

    /// Bits that have a name and are no server's to report: Hypervisor, which every table has, and the secure-AVIC bit unless it was chosen.
    fn not_reported(&self, register: usize, secure_avic: bool) -> u32 {
        match (self.leaf, register) {
            (0x1, ECX) => 1 << 31,
            (0x8000_001F, 0) if !secure_avic => 1 << 26,
            _ => 0,
        }
    }
}
