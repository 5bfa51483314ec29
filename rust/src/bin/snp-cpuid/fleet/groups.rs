//! Groups: classes whose tables differ in features only.

use super::bits::{self, Bits};
use super::{Class, Tables};
use crate::features::{self, ECX, EDX};
use crate::fields::cut;
use crate::words;
use snp_cpuid::{Row, Table};
use std::collections::BTreeMap;
use std::ops::Range;

/// Classes that differ in features only, and in the states and the save area that hang on them.
pub struct Group {
    /// A, B, .., Z, AA, ..
    pub letter: String,
    /// the places of its classes
    pub classes: Range<usize>,
    /// how many servers they have
    pub servers: usize,
    /// the feature bits that some of them have and some have not
    pub differing: Vec<Bits>,
}

/// Equal tables with their servers into named classes, and these into groups: the group of most servers first, and in it the class of most features.
pub fn named(tables: Tables) -> (Vec<Class>, Vec<Group>) {
    let mut apart: BTreeMap<Vec<u32>, Tables> = BTreeMap::new();
    for (servers, table) in tables {
        apart.entry(beyond_features(&table)).or_default().push((servers, table));
    }
    let many = |group: &Tables| group.iter().map(|(servers, _)| servers.len()).sum::<usize>();
    let mut together: Vec<_> = apart.into_values().collect();
    together.sort_by_key(|group| std::cmp::Reverse(many(group)));
    let (mut classes, mut groups) = (vec![], vec![]);
    for (place, mut group) in together.into_iter().enumerate() {
        let (letter, first, servers) = (letter(place), classes.len(), many(&group));
        group.sort_by_cached_key(|(servers, table)| (u32::MAX - bits::count(table), usize::MAX - servers.len(), table.image().to_vec()));
        let named = group.into_iter().enumerate().map(|(number, (servers, table))| {
            let name = format!("{letter}{}", number + 1);
            let fingerprint = table.fingerprint();
            Class { name, group: place, servers, table, fingerprint }
        });
        classes.extend(named);
        let tables: Vec<&Table> = classes[first..].iter().map(|class: &Class| &class.table).collect();
        groups.push(Group { letter, classes: first..classes.len(), servers, differing: bits::differing(&tables) });
    }
    (classes, groups)
}

/// A to Z, then AA to AZ, and so on.
fn letter(place: usize) -> String {
    let last = char::from(b'A' + (place % 26) as u8);
    if place < 26 { last.to_string() } else { format!("{}{last}", letter(place / 26 - 1)) }
}

/// The part of a register that is equal inside a group; none where it may differ there: in a feature register, the save area, and the rows of states.
/// `pool` joins these and no others. Bit 28 of 1.EDX, hyperthreading, is no feature.
pub fn fixed(row: &Row, register: usize, value: u32) -> Option<u32> {
    match (row.leaf, row.subleaf, register) {
        (0x1, None, EDX) => Some(value & 1 << 28),
        (0xD, Some(0), ECX) | (0xD, Some(2..), _) => None,
        (leaf, subleaf, register) => features::find(leaf, subleaf, register).is_none().then_some(value),
    }
}

/// All that is equal inside a group.
fn beyond_features(table: &Table) -> Vec<u32> {
    let of_row = |row: Row| (0..4).filter_map(move |register| fixed(&row, register, words::registers(&row)[register]));
    table.rows().flat_map(of_row).collect()
}

/// The processor's name, as leaves 80000002 to 80000004 spell it.
pub fn processor(table: &Table) -> String {
    let rows = (0x8000_0002..=0x8000_0004).filter_map(|leaf| table.find(leaf, None));
    let bytes: Vec<u8> = rows.flat_map(|row| words::registers(&row)).flat_map(u32::to_le_bytes).take_while(|byte| *byte != 0).collect();
    let name: String = bytes.iter().map(|byte| if matches!(byte, b' '..=b'~') { *byte as char } else { '?' }).collect();
    if name.trim().is_empty() { "no processor name".into() } else { name.trim().into() }
}

/// Family, model and stepping, as `table` has them.
pub fn signature(table: &Table) -> String {
    let words = table.find(0x1, None).map(|row| words::of_row(&row)).unwrap_or_default();
    let (_, words) = words.into_iter().next().unwrap_or_default();
    words.split(", type").next().unwrap_or_default().to_string()
}

/// Logical processors, and threads of a core.
pub fn topology(table: &Table) -> (u32, u32) {
    let level = |subleaf| table.find(0xB, Some(subleaf)).map_or(0, |row| cut(&row, "num-lps"));
    (level(1), level(0))
}

/// The size of the save area.
pub fn save_area(table: &Table) -> u32 {
    table.row(0xD, Some(0)).map_or(0, |row| row.ecx)
}
