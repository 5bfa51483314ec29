//! What a register of two servers says, in words and only where the two differ: "stepping 1h" and "stepping 2h".

use crate::features::{EAX, EBX, ECX, EDX};
use crate::words;
use snp_cpuid::{CpuidResult, Origin, Row};
use std::collections::HashMap;

/// A row of these registers.
pub fn row(leaf: u32, subleaf: Option<u32>, [eax, ebx, ecx, edx]: [u32; 4]) -> Row {
    Row { leaf, subleaf, result: CpuidResult { eax, ebx, ecx, edx }, origin: Origin::Unknown }
}

/// The register in each of the rows: its parts in words that are not the same in all, or the values where words do not tell them apart.
pub fn apart(rows: &[Row], register: usize) -> Vec<String> {
    let told: Vec<Vec<String>> = rows.iter().map(|row| parts(row, register)).collect();
    let fewest = told.iter().map(Vec::len).min().unwrap_or(0);
    let alike = told.iter().all(|parts| parts.len() == fewest);
    let unlike: Vec<usize> = (0..fewest).filter(|part| !alike || told.iter().any(|parts| parts[*part] != told[0][*part])).collect();
    let value = |row: &Row| words::registers(row)[register];
    let words: Vec<String> = told.iter().map(|parts| unlike.iter().map(|part| parts[*part].as_str()).collect::<Vec<_>>().join(", ")).collect();
    // words tell two values apart where each stands for one of them
    let mut stands_for = HashMap::new();
    let told_apart = rows.iter().zip(&words).all(|(row, words)| *stands_for.entry(words).or_insert(value(row)) == value(row));
    if unlike.is_empty() || !told_apart { rows.iter().map(|row| format!("{:08X}", value(row))).collect() } else { words }
}

/// The words of one register of a row, part by part.
fn parts(row: &Row, register: usize) -> Vec<String> {
    let all = words::of_row(row);
    let own = all.iter().find(|(place, _)| *place == register).map(|(_, words)| words.split(", ").map(String::from).collect());
    own.unwrap_or_default()
}

/// What a register is called that has no words of its own.
pub fn called(leaf: u32, subleaf: Option<u32>, register: usize) -> Option<&'static str> {
    Some(match (leaf, subleaf, register) {
        (0xB, _, EDX) => "x2APIC number",
        (0xD, Some(0), EBX) => "save area of the states that are on",
        (0xD, Some(0), ECX) => "save area",
        (0xD, Some(1), EBX) => "compacted save area of the states that are on",
        (0x8000_0007, None, EDX) => "power management",
        (0x8000_001E, None, EAX) => "extended APIC number",
        (0x8000_001E, None, EBX) => "unit and threads per unit",
        (0x8000_001E, None, ECX) => "node",
        _ => return None,
    })
}

/// Whether a leaf spells the processor's name.
pub fn is_name(leaf: u32) -> bool {
    (0x8000_0002..=0x8000_0004).contains(&leaf)
}
