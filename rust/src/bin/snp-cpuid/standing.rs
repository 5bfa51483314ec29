//! The raw entries of pages, also of pages that are refused.

use crate::masks::{Kept, kept};
use crate::pages::PAGE_ENTRIES;
use snp_cpuid::{Origin, PAGE_BYTES, first_entry};
use std::collections::{BTreeMap, BTreeSet};

/// One of the 64 entries of a page.
pub struct Place {
    /// the page, from 0
    pub page: usize,
    /// the place on its page, from 0
    pub entry: usize,
    /// EAX_IN: the leaf
    pub leaf: u32,
    /// ECX_IN: the subleaf
    pub subleaf: u32,
    pub xcr0: u64,
    pub xss: u64,
    /// the four results
    pub registers: [u32; 4],
    pub reserved: [u8; 8],
    /// whether it stands below its page's count
    pub below_count: bool,
}

/// A set of pages.
pub struct Standing {
    /// each page's count
    pub counts: Vec<u32>,
    /// the entries below the counts, and those above that are not all zeros
    pub places: Vec<Place>,
    /// how many bytes are left over after the last whole page
    pub over: usize,
    /// the first entry of each row that has one, by its place in the list
    firsts: BTreeMap<(u32, Option<u32>), usize>,
}

impl Standing {
    pub fn of(pages: &[u8]) -> Standing {
        let mut standing = Standing { counts: vec![], places: vec![], over: pages.len() % PAGE_BYTES, firsts: BTreeMap::new() };
        let mut whole = Vec::with_capacity(pages.len());
        for (number, page) in pages.chunks_exact(PAGE_BYTES).enumerate() {
            let count = word(page, 0);
            standing.counts.push(count);
            standing.places.extend((0..PAGE_ENTRIES).map(|entry| place(number, entry, page)).filter(|place| place.below_count || place.is_used()));
            whole.extend(readable(page, count));
        }
        standing.find_firsts(&whole);
        standing.places.shrink_to_fit();
        standing
    }

    /// Asks the library for the first entry of each row that an entry is of, in pages that it reads.
    fn find_firsts(&mut self, pages: &[u8]) {
        let rows: BTreeSet<_> = self.places.iter().filter_map(Place::kept).map(|kept| (kept.leaf, kept.subleaf)).collect();
        for (leaf, subleaf) in rows {
            let Ok(Some(Origin::Entry { page, entry })) = first_entry(pages, leaf, subleaf.unwrap_or(0)) else { continue };
            let at = self.places.binary_search_by_key(&(page, entry), |place| (place.page, place.entry));
            self.firsts.extend(at.ok().map(|at| ((leaf, subleaf), at)));
        }
    }

    /// The first entry for a row, which the table takes: the library's answer.
    pub fn first(&self, leaf: u32, subleaf: Option<u32>) -> Option<&Place> {
        self.firsts.get(&(leaf, subleaf)).map(|at| &self.places[*at])
    }

    /// The first entry's registers as the table's rules find them; zeros where there is none.
    pub fn masked(&self, leaf: u32, subleaf: Option<u32>) -> [u32; 4] {
        let masked = |place: &Place| place.kept().map(|kept| kept.masked(place.registers, false));
        self.first(leaf, subleaf).and_then(masked).unwrap_or_default()
    }
}

impl Place {
    /// What a table keeps of it; nothing where no table reads its leaf.
    pub fn kept(&self) -> Option<Kept> {
        kept(self.leaf, self.subleaf)
    }

    /// Whether it counts: below its page's count and, for leaf Dh, on page 1.
    pub fn counts(&self) -> bool {
        self.below_count && (self.leaf != 0xD || self.page == 1)
    }

    /// As messages name it.
    pub fn name(&self) -> String {
        Origin::Entry { page: self.page, entry: self.entry }.to_string()
    }

    fn is_used(&self) -> bool {
        (self.leaf, self.subleaf, self.xcr0, self.xss, self.registers, self.reserved) != Default::default()
    }
}

/// An entry: EAX_IN at 0, ECX_IN at 4, XCR0_IN at 8, XSS_IN at 16, the results from 24, eight reserved bytes at 40.
fn place(page: usize, entry: usize, bytes: &[u8]) -> Place {
    let at = start(entry);
    let wide = |at| u64::from(word(bytes, at)) | u64::from(word(bytes, at + 4)) << 32;
    Place {
        page,
        entry,
        leaf: word(bytes, at),
        subleaf: word(bytes, at + 4),
        xcr0: wide(at + 8),
        xss: wide(at + 16),
        registers: [24, 28, 32, 36].map(|register| word(bytes, at + register)),
        reserved: bytes[at + 40..at + 48].try_into().expect("eight bytes"),
        below_count: (entry as u32) < word(bytes, 0),
    }
}

/// A page whose entries the library reads, for the first ones: a count above 64 is taken for 64, and reserved bytes are zeros.
fn readable(page: &[u8], count: u32) -> Vec<u8> {
    let mut copy = page.to_vec();
    copy[..4].copy_from_slice(&count.min(PAGE_ENTRIES as u32).to_le_bytes());
    (0..PAGE_ENTRIES).for_each(|entry| copy[start(entry) + 40..start(entry) + 48].fill(0));
    copy
}

/// Where an entry begins on its page.
pub fn start(entry: usize) -> usize {
    16 + 48 * entry
}

/// Four bytes, little-endian.
pub fn word(bytes: &[u8], at: usize) -> u32 {
    u32::from_le_bytes(bytes[at..at + 4].try_into().expect("four bytes"))
}
