//! A table in the shape that OpenHCL's Rust keeps it in, a hash map of leaves with an ordered map of subleaves, for bench.c: finds beside the port's.
use std::collections::{BTreeMap, HashMap};

type Registers = [u32; 4];

enum Entry {
    Leaf(Registers),
    Subtable(BTreeMap<u32, Registers>),
}

pub struct Map(HashMap<u32, Entry>);

#[unsafe(no_mangle)]
pub extern "C" fn map_new() -> *mut Map {
    Box::into_raw(Box::new(Map(HashMap::new())))
}

/// Puts a row that is not there yet.
///
/// # Safety
/// `map` is of `map_new`.
#[unsafe(no_mangle)]
pub unsafe extern "C" fn map_put(map: *mut Map, leaf: u32, has_subleaf: bool, subleaf: u32, registers: &Registers) {
    let Map(rows) = unsafe { &mut *map };
    if !has_subleaf {
        rows.insert(leaf, Entry::Leaf(*registers));
    } else if let Entry::Subtable(table) = rows.entry(leaf).or_insert_with(|| Entry::Subtable(BTreeMap::new())) {
        table.insert(subleaf, *registers);
    }
}

/// Whether the row is there, and its registers.
///
/// # Safety
/// `map` is of `map_new`.
#[unsafe(no_mangle)]
pub unsafe extern "C" fn map_find(map: *const Map, leaf: u32, has_subleaf: bool, subleaf: u32, enforce_subleaf: bool, out: &mut Registers) -> bool {
    let Map(rows) = unsafe { &*map };
    let found = match rows.get(&leaf) {
        Some(Entry::Leaf(registers)) => (!has_subleaf || !enforce_subleaf).then_some(registers),
        Some(Entry::Subtable(table)) if has_subleaf => table.get(&subleaf),
        _ => None,
    };
    *out = found.copied().unwrap_or_default();
    found.is_some()
}
