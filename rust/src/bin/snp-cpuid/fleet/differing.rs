//! What classes differ in: feature bits by class, and the registers that keep groups apart.

use super::bits::{self, Bits};
use super::groups::fixed;
use super::{Class, Fleet, Group};
use crate::features::{self, FeatureBit};
use crate::{said, words};
use snp_cpuid::Table;

/// Feature bits of one register that the same classes have.
pub struct Feature {
    pub bits: Bits,
    /// for each class whether it has them
    pub has: Vec<bool>,
}

/// The feature bits that some classes have and some have not.
pub fn features(classes: &[Class]) -> Vec<Feature> {
    let tables: Vec<&Table> = classes.iter().map(|class| &class.table).collect();
    let mut rows: Vec<Feature> = vec![];
    for bits in bits::differing(&tables) {
        let values: Vec<u32> = tables.iter().map(|table| bits::value(table, bits.register)).collect();
        let start = rows.len();
        for FeatureBit { bit, .. } in bits.each() {
            let has: Vec<bool> = values.iter().map(|value| value >> bit & 1 == 1).collect();
            match rows[start..].iter_mut().find(|row| row.has == has) {
                Some(row) => row.bits.value |= 1 << bit,
                None => rows.push(Feature { bits: Bits { value: 1 << bit, ..bits }, has }),
            }
        }
    }
    rows
}

/// The features that a class lacks and another of its group has.
pub fn lacks(fleet: &Fleet, class: usize) -> Vec<Bits> {
    let class = &fleet.classes[class];
    let own = |bits: &Bits| Bits { value: bits.value & !bits::value(&class.table, bits.register), ..*bits };
    fleet.groups[class.group].differing.iter().map(own).filter(|bits| bits.value != 0).collect()
}

/// A register that keeps groups apart, with its value in each.
pub struct Apart {
    pub leaf: u32,
    pub subleaf: Option<u32>,
    pub register: usize,
    pub values: Vec<u32>,
    /// what it says in each, in words
    pub words: Vec<String>,
}

/// The registers in words, a line each: what it is called, and what it says in each group. The processor's name, which takes twelve, is one.
pub fn in_words(groups: &[&Group], classes: &[Class]) -> Vec<(String, Vec<String>)> {
    let (names, others): (Vec<Apart>, Vec<Apart>) = apart(groups, classes).into_iter().partition(|apart| said::is_name(apart.leaf));
    let spelled = |group: &&Group| super::groups::processor(&classes[group.classes.start].table);
    let name = (!names.is_empty()).then(|| ("processor name".to_string(), groups.iter().map(spelled).collect()));
    let other = |apart: Apart| {
        let called = said::called(apart.leaf, apart.subleaf, apart.register).map_or(String::new(), |name| format!(", {name}"));
        (bits::register_name(apart.leaf, apart.subleaf, apart.register) + &called, apart.words)
    };
    name.into_iter().chain(others.into_iter().map(other)).collect()
}

/// The registers, features and what hangs on them left out, in which these groups differ.
pub fn apart(groups: &[&Group], classes: &[Class]) -> Vec<Apart> {
    let tables: Vec<&Table> = groups.iter().map(|group| &classes[group.classes.start].table).collect();
    let mut found = vec![];
    for row in tables.first().iter().flat_map(|table| table.rows()) {
        for register in 0..4 {
            let value = |table: &&Table| table.find(row.leaf, row.subleaf).and_then(|row| fixed(&row, register, words::registers(&row)[register]));
            let values: Vec<u32> = tables.iter().map(|table| value(table).unwrap_or(0)).collect();
            if values.iter().any(|value| *value != values[0]) {
                let of = |table: &&Table| table.find(row.leaf, row.subleaf).unwrap_or_else(|| said::row(row.leaf, row.subleaf, [0; 4]));
                // of the feature registers only hyperthreading keeps groups apart
                let words = match features::find(row.leaf, row.subleaf, register) {
                    Some(_) => values.iter().map(|value| if *value == 0 { "HTT clear" } else { "HTT set" }.to_string()).collect(),
                    None => said::apart(&tables.iter().map(of).collect::<Vec<_>>(), register),
                };
                found.push(Apart { leaf: row.leaf, subleaf: row.subleaf, register, values, words });
            }
        }
    }
    found
}
