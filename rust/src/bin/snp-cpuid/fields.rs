//! The fields of more than one bit, under the names of x86defs (crates/x86defs/specs/Fields.antt, against which tests/command/names.rs
//! holds them).

use crate::features::{EAX, EBX, ECX, EDX};
use snp_cpuid::Row;

/// `width` bits of a register from bit `low` up.
pub struct Field {
    pub leaf: u32,
    pub subleaf: Option<u32>,
    pub register: usize,
    pub low: u32,
    pub width: u32,
    pub name: &'static str,
}

const fn field(leaf: u32, subleaf: Option<u32>, register: usize, low: u32, width: u32, name: &'static str) -> Field {
    Field { leaf, subleaf, register, low, width, name }
}

pub const FIELDS: [Field; 37] = [
    field(0x1, None, EAX, 0, 4, "processor-stepping"),
    field(0x1, None, EAX, 4, 4, "processor-model"),
    field(0x1, None, EAX, 8, 4, "processor-family"),
    field(0x1, None, EAX, 12, 2, "processor-type"),
    field(0x1, None, EAX, 16, 4, "extended-model"),
    field(0x1, None, EAX, 20, 8, "extended-family"),
    field(0x1, None, EBX, 0, 8, "brand-index"),
    field(0x1, None, EBX, 8, 8, "clflush-line-size"),
    field(0x1, None, EBX, 16, 8, "lps-per-package"),
    field(0x1, None, EBX, 24, 8, "initial-apic-id"),
    field(0xB, Some(0), EAX, 0, 5, "x2-apic-shift"),
    field(0xB, Some(0), EBX, 0, 16, "num-lps"),
    field(0xB, Some(0), ECX, 0, 8, "level-number"),
    field(0xB, Some(0), ECX, 8, 8, "level-type"),
    field(0xB, Some(1), EAX, 0, 5, "x2-apic-shift"),
    field(0xB, Some(1), EBX, 0, 16, "num-lps"),
    field(0xB, Some(1), ECX, 0, 8, "level-number"),
    field(0xB, Some(1), ECX, 8, 8, "level-type"),
    field(0x8000_0001, None, EAX, 0, 4, "processor-stepping"),
    field(0x8000_0001, None, EAX, 4, 4, "processor-model"),
    field(0x8000_0001, None, EAX, 8, 4, "processor-family"),
    field(0x8000_0001, None, EAX, 12, 2, "processor-type"),
    field(0x8000_0001, None, EAX, 16, 4, "extended-model"),
    field(0x8000_0001, None, EAX, 20, 8, "extended-family"),
    field(0x8000_0001, None, EBX, 0, 16, "brand-id"),
    field(0x8000_0001, None, EBX, 28, 4, "pkg-type"),
    field(0x8000_0008, None, EAX, 0, 8, "physical-address-size"),
    field(0x8000_0008, None, EAX, 8, 8, "virtual-address-size"),
    field(0x8000_0008, None, ECX, 0, 8, "nc"),
    field(0x8000_0008, None, ECX, 12, 4, "apic-core-id-size"),
    field(0x8000_0008, None, EDX, 0, 16, "invlpgb-count-max"),
    field(0x8000_0008, None, EDX, 16, 16, "rdpru-max-ecx"),
    field(0x8000_000A, None, EAX, 0, 8, "svm-rev"),
    field(0x8000_001E, None, EBX, 8, 8, "threads-per-compute-unit"),
    field(0x8000_001F, None, EBX, 0, 6, "cbit-position"),
    field(0x8000_001F, None, EBX, 6, 6, "encryption-physical-bits-used"),
    field(0x8000_001F, None, EBX, 12, 4, "number-of-vmpls"),
];

/// The field of this name in a row.
pub fn cut(row: &Row, name: &str) -> u32 {
    let found = FIELDS.iter().find(|f| (f.leaf, f.subleaf, f.name) == (row.leaf, row.subleaf, name));
    let f = found.expect("every field that is asked for is in the table");
    let registers = [row.result.eax, row.result.ebx, row.result.ecx, row.result.edx];
    registers[f.register] >> f.low & ((1 << f.width) - 1)
}
