//! What processors show of a table, by CPUID or by a dump, held against what the library gives their guests.

use crate::features::{self, FeatureBit};
use crate::inputs::dump;
use crate::pages::{Entry, STATE};
use crate::{machine, words};
use snp_cpuid::{Processor, Row, Table};
use std::collections::BTreeMap;
use std::io;

/// What one processor shows.
pub struct View {
    /// what reports call it
    pub name: String,
    /// XCR0, where it could be read
    xcr0: Option<u64>,
    rows: BTreeMap<(u32, u32), [u32; 4]>,
}

/// A register that a processor shows otherwise than its guest should see it; none where it shows no such row.
pub struct Unlike {
    pub leaf: u32,
    pub subleaf: Option<u32>,
    pub register: usize,
    pub table: u32,
    pub here: Option<u32>,
}

/// A view held against a table: the processor that it was taken for, and what is unlike.
pub struct Held {
    pub processor: Processor,
    /// whether the table allows its state
    pub allowed: bool,
    pub unlike: Vec<Unlike>,
}

/// What every processor shows on which this may run.
pub fn asked(table: &Table) -> io::Result<Vec<View>> {
    let asked = |processor: usize| {
        machine::stay_on(processor)?;
        let rows = table.rows().map(|row| (row.leaf, row.subleaf.unwrap_or(0))).map(|place| (place, machine::cpuid(place.0, place.1)));
        Ok(View { name: format!("processor {processor}"), xcr0: Some(machine::xcr0()), rows: rows.collect() })
    };
    machine::allowed()?.into_iter().map(asked).collect()
}

/// What each CPU of a dump shows. The first row of a leaf and subleaf counts, and leaf Dh must be there.
pub fn dumped(text: &[u8]) -> Result<Vec<View>, String> {
    let view = |(cpu, entries): (usize, Vec<Entry>)| {
        let rows: BTreeMap<_, _> = entries.into_iter().rev().map(|entry| ((entry.leaf, entry.subleaf), entry.registers)).collect();
        if !rows.contains_key(&(STATE, 0)) {
            return Err(format!("CPU {cpu} has no row for leaf D, whose sizes tell the states that are on"));
        }
        Ok(View { name: format!("CPU {cpu}"), xcr0: None, rows })
    };
    dump::by_cpu(text)?.into_iter().enumerate().map(view).collect()
}

/// All masks within a mask, from the most bits to none.
fn within(mask: u64) -> impl Iterator<Item = u64> {
    std::iter::successors(Some(mask), move |last| last.checked_sub(1).map(|next| next & mask))
}

impl View {
    fn register(&self, leaf: u32, subleaf: u32, register: usize) -> u32 {
        self.rows.get(&(leaf, subleaf)).map_or(0, |row| row[register])
    }

    /// The processor with a state: its number is that of leaf Bh.
    fn processor(&self, xcr0: u64, xss: u64) -> Processor {
        Processor::new(self.register(0xB, 0, 3)).xcr0(xcr0).xss(xss).osxsave(self.register(1, 0, 2) >> 27 & 1 == 1)
    }

    /// The states that may be on: XCR0 as it was read or, from a dump, any that the table allows, and any XSS that the table allows.
    fn states(&self, table: &Table) -> Vec<(u64, u64)> {
        let word = |subleaf, register: usize| table.find(STATE, Some(subleaf)).map_or(0, |row| u64::from(words::registers(&row)[register]));
        let supervisor = if word(1, 0) & 0xA == 0xA { word(1, 2) } else { 0 };
        let user: Vec<u64> = self.xcr0.map_or_else(|| within(word(0, 0) & !1).map(|mask| mask | 1).collect(), |xcr0| vec![xcr0]);
        user.into_iter().flat_map(|xcr0| within(supervisor).map(move |xss| (xcr0, xss))).collect()
    }

    /// The view held against a table, under the state that fits best.
    pub fn held(&self, table: &Table) -> Held {
        let states = self.states(table);
        let held = |(xcr0, xss): &(u64, u64)| {
            let processor = self.processor(*xcr0, *xss);
            let seen = table.guest(processor).ok()?;
            Some(Held { processor, allowed: true, unlike: self.unlike(&seen) })
        };
        let best = states.iter().filter_map(held).min_by_key(|held| held.unlike.len());
        best.unwrap_or_else(|| {
            let (xcr0, xss) = *states.last().expect("a state");
            Held { processor: self.processor(xcr0, xss), allowed: false, unlike: self.unlike(table) }
        })
    }

    /// The registers in which it is unlike a table of the same rows.
    fn unlike(&self, seen: &Table) -> Vec<Unlike> {
        let of_row = |row: Row| {
            let here = self.rows.get(&(row.leaf, row.subleaf.unwrap_or(0))).copied();
            let register = move |(register, table): (usize, u32)| {
                let here = here.map(|registers| registers[register]);
                (here != Some(table)).then_some(Unlike { leaf: row.leaf, subleaf: row.subleaf, register, table, here })
            };
            words::registers(&row).into_iter().enumerate().filter_map(register).collect::<Vec<_>>()
        };
        seen.rows().flat_map(of_row).collect()
    }
}

impl Unlike {
    /// The feature bits that differ, by name.
    pub fn bits(&self) -> Vec<FeatureBit> {
        let differ = self.table ^ self.here.unwrap_or(0);
        features::find(self.leaf, self.subleaf, self.register).map_or(vec![], |feature| feature.bits_of(differ).collect())
    }
}
