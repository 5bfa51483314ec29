//! The feature bits of tables: which one has and another has not, by name.

use crate::features::{FEATURES, FeatureBit, FeatureRegister, REGISTERS};
use crate::{print, words};
use snp_cpuid::Table;

/// Some bits of a feature register.
#[derive(Clone, Copy)]
pub struct Bits {
    pub register: &'static FeatureRegister,
    pub value: u32,
}

impl Bits {
    /// Each of them, rising.
    pub fn each(&self) -> impl Iterator<Item = FeatureBit> {
        self.register.bits_of(self.value)
    }

    /// Their names.
    pub fn names(&self) -> Vec<&'static str> {
        self.register.names(self.value.into())
    }
}

/// A register as a report calls it: 7.0 EBX.
pub fn register_name(leaf: u32, subleaf: Option<u32>, register: usize) -> String {
    format!("{} {}", short_place(leaf, subleaf), REGISTERS[register])
}

/// A leaf and subleaf without leading zeros: 1, 7.0, 8000001D.3.
pub fn short_place(leaf: u32, subleaf: Option<u32>) -> String {
    let place = print::place(leaf, subleaf);
    let short = place.trim_start_matches('0');
    if leaf == 0 { format!("0{short}") } else { short.to_string() }
}

/// A feature register in a table; 0 where the table has no such row.
pub fn value(table: &Table, register: &FeatureRegister) -> u32 {
    table.find(register.leaf, register.subleaf).map_or(0, |row| words::registers(&row)[register.register])
}

/// The bits that a function of the register gives, register by register; those without a bit are left out.
fn each(bits: impl Fn(&'static FeatureRegister) -> u32) -> Vec<Bits> {
    let all = FEATURES.iter().map(|register| Bits { register, value: bits(register) });
    all.filter(|bits| bits.value != 0).collect()
}

/// The bits that table A has and table B has not.
pub fn lacked(a: &Table, b: &Table) -> Vec<Bits> {
    each(|register| value(a, register) & !value(b, register))
}

/// The bits that some of these tables have and some have not.
pub fn differing(tables: &[&Table]) -> Vec<Bits> {
    let joined = |register: &FeatureRegister, join: fn(u32, u32) -> u32| tables.iter().map(|table| value(table, register)).reduce(join).unwrap_or(0);
    each(|register| joined(register, |a, b| a | b) & !joined(register, |a, b| a & b))
}

/// The names of all these bits.
pub fn names(bits: &[Bits]) -> Vec<&'static str> {
    bits.iter().flat_map(Bits::names).collect()
}

/// How many feature bits a table has.
pub fn count(table: &Table) -> u32 {
    FEATURES.iter().map(|register| value(table, register).count_ones()).sum()
}
