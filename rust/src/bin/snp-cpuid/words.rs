//! A row in words: its feature bits by name, and its fields.

use crate::features::{EAX, EBX, ECX, EDX, find};
use crate::fields::cut;
use crate::{caches, components};
use snp_cpuid::Row;

/// The four registers of a row by their place.
pub fn registers(row: &Row) -> [u32; 4] {
    [row.result.eax, row.result.ebx, row.result.ecx, row.result.edx]
}

/// What stands under a row: a register and its words, registers in order. A feature register without a bit says nothing.
pub fn of_row(row: &Row) -> Vec<(usize, String)> {
    let mut lines = fields(row);
    for (register, value) in registers(row).into_iter().enumerate() {
        if let Some(feature) = find(row.leaf, row.subleaf, register) {
            lines.push((register, feature.names(value.into()).join(" ")));
        }
    }
    lines.retain(|(_, words)| !words.is_empty());
    lines.sort_by_key(|(register, _)| *register);
    lines
}

/// The names of a row's feature bits that are set, registers in order.
pub fn features(row: &Row) -> Vec<&'static str> {
    let names = |(register, value): (usize, u32)| find(row.leaf, row.subleaf, register).map(|feature| feature.names(value.into()));
    registers(row).into_iter().enumerate().filter_map(names).flatten().collect()
}

/// The registers to which document 01 or the manual gives a meaning other than feature bits.
fn fields(row: &Row) -> Vec<(usize, String)> {
    let r = &row.result;
    match (row.leaf, row.subleaf) {
        (0x0, None) => {
            vec![(EAX, format!("highest standard leaf {:08X}", r.eax)), (EBX, format!("vendor {} (EBX, EDX, ECX)", text(&[r.ebx, r.edx, r.ecx])))]
        }
        (0x8000_0000, None) => {
            vec![(EAX, format!("highest extended leaf {:08X}", r.eax)), (EBX, format!("vendor {} (EBX, EDX, ECX)", text(&[r.ebx, r.edx, r.ecx])))]
        }
        (0x1, None) => vec![(EAX, signature(row)), (EBX, package(row))],
        (0xB, Some(_)) => level(row),
        (0xD, Some(0)) => vec![(ECX, format!("save area {} bytes", r.ecx))],
        (0xD, Some(component @ 2..)) => vec![(EAX, state(component, row))],
        (0x8000_0001, None) => {
            vec![(EAX, signature(row)), (EBX, format!("brand id {}, package type {}", cut(row, "brand-id"), cut(row, "pkg-type")))]
        }
        (0x8000_0002..=0x8000_0004, None) => vec![(EAX, format!("processor name {} (EAX to EDX)", text(&registers(row))))],
        (0x8000_0008, None) => sizes(row),
        (0x8000_000A, None) => vec![(EAX, format!("SVM revision {}", cut(row, "svm-rev")))],
        (0x8000_001E, None) => vec![(EBX, format!("threads per unit {}", cut(row, "threads-per-compute-unit") + 1))],
        (0x8000_001F, None) => vec![(EBX, encryption(row))],
        _ => caches::words(row),
    }
}

/// Family, model and stepping: the extended fields count where the family is Fh (AMD64 APM volume 3, Fn0000_0001_EAX).
fn signature(row: &Row) -> String {
    let base = cut(row, "processor-family");
    let (family, model) = match base {
        0xF => (base + cut(row, "extended-family"), cut(row, "extended-model") << 4 | cut(row, "processor-model")),
        _ => (base, cut(row, "processor-model")),
    };
    format!("family {family:02X}h, model {model:02X}h, stepping {:X}h, type {}", cut(row, "processor-stepping"), cut(row, "processor-type"))
}

fn package(row: &Row) -> String {
    format!(
        "brand index {}, CLFLUSH line {} bytes, logical processors {}, initial APIC id {}",
        cut(row, "brand-index"),
        cut(row, "clflush-line-size") * 8,
        cut(row, "lps-per-package"),
        cut(row, "initial-apic-id")
    )
}

fn level(row: &Row) -> Vec<(usize, String)> {
    let kind = match cut(row, "level-type") {
        1 => "threads of a core",
        2 => "cores",
        _ => "unknown",
    };
    vec![
        (EAX, format!("APIC id shift {}", cut(row, "x2-apic-shift"))),
        (EBX, format!("logical processors {}", cut(row, "num-lps"))),
        (ECX, format!("level {}: {kind}", cut(row, "level-number"))),
    ]
}

/// An extended state. One of XSS has no offset of its own (AMD64 APM volume 3, Fn0000_000D_EBX_x).
fn state(component: u32, row: &Row) -> String {
    let name = components::name(component).unwrap_or("unknown");
    let bytes = row.result.eax;
    if find(0xD, Some(1), ECX).is_some_and(|xss| xss.bits.iter().any(|(bit, _)| *bit == component)) {
        format!("{name} state: {bytes} bytes, in XSS")
    } else {
        format!("{name} state: {bytes} bytes at offset {} (EBX)", row.result.ebx)
    }
}

fn sizes(row: &Row) -> Vec<(usize, String)> {
    vec![
        (EAX, format!("physical address {} bits, virtual address {} bits", cut(row, "physical-address-size"), cut(row, "virtual-address-size"))),
        (ECX, format!("processors {} (NC + 1), APIC core id size {}", cut(row, "nc") + 1, cut(row, "apic-core-id-size"))),
        (EDX, format!("INVLPGB at most {} pages, RDPRU at most register {}", cut(row, "invlpgb-count-max"), cut(row, "rdpru-max-ecx"))),
    ]
}

fn encryption(row: &Row) -> String {
    format!(
        "C-bit position {}, physical address bits less {}, VMPLs {}",
        cut(row, "cbit-position"),
        cut(row, "encryption-physical-bits-used"),
        cut(row, "number-of-vmpls")
    )
}

/// Registers as text, up to the first zero byte; a byte that is no printable ASCII is a question mark.
pub fn text(registers: &[u32]) -> String {
    let bytes = registers.iter().flat_map(|r| r.to_le_bytes()).take_while(|byte| *byte != 0);
    let shown: String = bytes.map(|byte| if matches!(byte, b' '..=b'~') { byte as char } else { '?' }).collect();
    format!("\"{shown}\"")
}

/// A number of things: 1 thread, 2 threads.
pub fn counted(number: u32, thing: &str) -> String {
    format!("{number} {thing}{}", if number == 1 { "" } else { "s" })
}
