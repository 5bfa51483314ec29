//! The five numbers that a server tells its topology by: why a refusal was given for them, and the nearest that are accepted. The tests send
//! these through the library, for every size (tests/command/reasons.rs).

use crate::features::{EAX, EBX, ECX, EDX};
use snp_cpuid::TopologyError;

/// The numbers, as document 01 calls them.
#[derive(Clone, Copy, Debug, PartialEq, Eq)]
pub struct Numbers {
    /// 80000008h.ECX bits 12-15: how many bits of an APIC number the cores of a socket take
    pub s: u32,
    /// 80000008h.ECX bits 0-7: processors less one
    pub nc: u32,
    /// 1.EBX bits 16-23: logical processors
    pub lps: u32,
    /// 1.EDX bit 28: whether there is more than one
    pub mt: u32,
    /// 8000001Eh.EBX bits 8-15: threads of a unit less one
    pub t: u32,
}

/// The registers that have them: leaf, register, the numbers' bits.
const PLACES: [(u32, usize, u32); 4] = [(0x1, EBX, 0x00FF_0000), (0x1, EDX, 1 << 28), (0x8000_0008, ECX, 0xF0FF), (0x8000_001E, EBX, 0xFF00)];

/// The bits of a register that tell one processor from another: its APIC number, its core and its node.
pub fn own_bits(leaf: u32, register: usize) -> u32 {
    match (leaf, register) {
        (0x1, EBX) => 0xFF00_0000,
        (0xB, EDX) | (0x8000_001E, EAX) => u32::MAX,
        (0x8000_001E, EBX | ECX) => 0xFF,
        _ => 0,
    }
}

impl Numbers {
    /// The numbers of a server whose registers of a leaf are given.
    pub fn of(registers: impl Fn(u32) -> [u32; 4]) -> Numbers {
        let [_, logical, _, flags] = registers(0x1);
        let [_, _, sizes, _] = registers(0x8000_0008);
        let [_, units, _, _] = registers(0x8000_001E);
        Numbers { s: sizes >> 12 & 15, nc: sizes & 0xFF, lps: logical >> 16 & 0xFF, mt: flags >> 28 & 1, t: units >> 8 & 0xFF }
    }

    /// The processors of a socket by these numbers, which B.1.EBX gives.
    fn processors(&self) -> u32 {
        match (self.s, self.mt) {
            (0, 0) => 1,
            (0, _) => self.lps,
            (s, _) => 1 << s,
        }
    }

    /// The nearest numbers that are accepted: s stays, and of the others as few change as can.
    pub fn accepted(&self) -> Numbers {
        let mut near = *self;
        match self.s {
            0 if self.mt == 1 || self.nc > 0 || self.lps > 1 => {
                near.mt = 1;
                // 256 processors do not fit 1.EBX
                near.nc = if self.nc == 255 { self.lps.max(1) - 1 } else { self.nc };
                near.lps = near.nc + 1;
            }
            s @ 1..8 => (near.nc, near.lps, near.mt) = (self.nc.min((1 << s) - 1), 1 << s, 1),
            _ => {}
        }
        near.t = self.t.min(1).min(near.processors() - 1);
        near
    }

    /// The registers that have the numbers, of a server whose others are given: leaf, register, value.
    pub fn registers(&self, old: impl Fn(u32) -> [u32; 4]) -> Vec<(u32, usize, u32)> {
        let values = [self.lps << 16, self.mt << 28, self.s << 12 | self.nc, self.t << 8];
        PLACES.iter().zip(values).map(|(&(leaf, register, bits), value)| (leaf, register, old(leaf)[register] & !bits | value)).collect()
    }

    /// In words.
    pub fn told(&self) -> String {
        let Numbers { s, nc, lps, mt, t } = self;
        format!("size {s}, processors {}, logical processors {lps}, HTT {mt}, threads per unit {}", nc + 1, t + 1)
    }
}

/// Whether a register of a leaf has one of the numbers.
pub fn is_of(leaf: u32, register: usize) -> bool {
    PLACES.iter().any(|(own, place, _)| (*own, *place) == (leaf, register))
}

/// The registers, by leaf, whose numbers a refusal rests on.
pub fn read_by(refusal: TopologyError, numbers: Numbers) -> Vec<(u32, usize)> {
    let (logical, flags, sizes, units) = ((0x1, EBX), (0x1, EDX), (0x8000_0008, ECX), (0x8000_001E, EBX));
    match refusal {
        TopologyError::Hyperthreading(_) => vec![flags, logical, sizes],
        TopologyError::ProcessorCount(_) => vec![logical, sizes],
        TopologyError::ThreadsPerUnit if numbers.t > 1 => vec![units],
        _ => vec![units, logical, flags, sizes],
    }
}

/// What is wrong with the numbers.
pub fn why(refusal: TopologyError, numbers: Numbers) -> String {
    let Numbers { s, nc, lps, mt, t } = numbers;
    let processors = numbers.processors();
    match (refusal, s) {
        (TopologyError::Hyperthreading(_), 0) => format!(
            "HTT (1.EDX bit 28) is clear, which is one processor, but there are {} by 80000008h.ECX bits 0-7 and {lps} by 1.EBX bits 16-23",
            nc + 1
        ),
        (TopologyError::Hyperthreading(_), _) => {
            format!("HTT (1.EDX bit 28) is {mt}, but APIC core id size {s} (80000008h.ECX bits 12-15) is 2^{s} = {processors} processors")
        }
        (TopologyError::ProcessorCount(_), 0) => {
            format!("1.EBX bits 16-23 give {lps} logical processors and must give {}, which is 80000008h.ECX bits 0-7 plus 1", nc + 1)
        }
        (TopologyError::ProcessorCount(_), _) if nc + 1 > processors => format!(
            "80000008h.ECX bits 0-7 plus 1 are {} processors, more than the 2^{s} = {processors} of APIC core id size {s} (80000008h.ECX bits 12-15)",
            nc + 1
        ),
        (TopologyError::ProcessorCount(_), _) => format!(
            "1.EBX bits 16-23 give {lps} logical processors and must give 2^{s} = {processors}, for APIC core id size {s} (80000008h.ECX bits 12-15)"
        ),
        (_, _) if t > 1 => format!("8000001Eh.EBX bits 8-15 plus 1 are {} threads per unit, more than 2", t + 1),
        (_, _) => format!("8000001Eh.EBX bits 8-15 plus 1 are {} threads per unit of {processors} processor", t + 1),
    }
}
