//! Why servers are no pool: 18 and 19.

use super::{Reason, counted};
use crate::differences::HTT;
use crate::features::{self, ECX, REGISTERS};
use crate::masks::required;
use crate::print::place as row_name;
use crate::standing::Standing;
use snp_cpuid::Table;

/// Why a pool of so many servers is refused.
pub fn of_pool_size(servers: usize) -> Reason {
    Reason::new(format!("{} given", counted(servers, "page set")), "two servers or more")
}

/// Where servers of a pool differ from the first, by their masked entries: all that 19 rests on. Each is a name, its entries and its table.
pub fn of_pool(servers: &[(&str, Standing, Table)], secure_avic: bool) -> Reason {
    let in_all = |(leaf, subleaf): &(u32, Option<u32>)| servers.iter().all(|(_, _, table)| table.find(*leaf, *subleaf).is_some());
    // 0, 80000000 and leaf Bh are made here
    let shared: Vec<_> = required().chain((2..64).map(|k| (0xD, Some(k)))).filter(|row| row.0 != 0xB && in_all(row)).collect();
    let mut told = vec![];
    if let Some(((first, own, _), others)) = servers.split_first() {
        for (name, standing, _) in others {
            let at: Vec<String> = shared.iter().flat_map(|(leaf, subleaf)| unlike(own, standing, *leaf, *subleaf, secure_avic)).collect();
            if !at.is_empty() {
                told.push(format!("{name} differs from {first} in {}", at.join(", ")));
            }
        }
    }
    Reason::new(told.join("; "), "the same values there, or a pool without the servers that differ")
}

/// The registers of a row in which two servers differ where they must not.
fn unlike(first: &Standing, other: &Standing, leaf: u32, subleaf: Option<u32>, secure_avic: bool) -> Vec<String> {
    let masked = |standing: &Standing| {
        let place = standing.first(leaf, subleaf)?;
        place.kept().map(|kept| kept.masked(place.registers, secure_avic))
    };
    let (Some(first), Some(other)) = (masked(first), masked(other)) else { return vec![] };
    let must_be_equal = |register: usize| match features::find(leaf, subleaf, register) {
        Some(_) if (leaf, register) == (HTT.0, HTT.1) => 1 << HTT.2,
        Some(_) => 0,
        None if (leaf, subleaf, register) == (0xD, Some(0), ECX) => 0,
        None => u32::MAX,
    };
    let differs = |register: &usize| (first[*register] ^ other[*register]) & must_be_equal(*register) != 0;
    let told = |register: usize| format!("{}.{} ({:08X}, {:08X})", row_name(leaf, subleaf), REGISTERS[register], other[register], first[register]);
    (0..4).filter(differs).map(told).collect()
}
