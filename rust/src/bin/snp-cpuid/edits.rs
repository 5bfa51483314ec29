//! Registers of pages that are changed by hand: those of the entries that a table takes, and entries that were not there.

use crate::features::REGISTERS;
use crate::masks::kept;
use crate::pages::{PAGE_ENTRIES, STATE};
use crate::print::place;
use crate::standing::{Standing, start, word};
use snp_cpuid::PAGE_BYTES;

/// A register with its new value.
#[derive(Clone, Copy)]
pub struct Edit {
    pub leaf: u32,
    pub subleaf: u32,
    pub register: usize,
    pub value: u32,
}

impl Edit {
    /// Writes the value into the first entry of its row, which is added where there is none; what was done, in words, and nothing where the value
    /// stood there already.
    pub fn put(&self, pages: &mut Vec<u8>) -> Result<Option<String>, String> {
        let name = self.name();
        let (at, added) = match self.entry(pages) {
            Some(at) => (at, false),
            None => (add(pages, self.leaf, self.subleaf)?, true),
        };
        let at = at + 24 + 4 * self.register;
        let old = word(pages, at);
        pages[at..at + 4].copy_from_slice(&self.value.to_le_bytes());
        Ok(match (added, old == self.value) {
            (true, _) => Some(format!("{name} is {:08X} in an entry that was not there", self.value)),
            (false, true) => None,
            (false, false) => Some(format!("{name} is {:08X} and was {old:08X}", self.value)),
        })
    }

    /// As messages name it: 80000008.EBX, 0000000D.1.ECX.
    fn name(&self) -> String {
        let subleaf = kept(self.leaf, self.subleaf).map_or(Some(self.subleaf), |kept| kept.subleaf);
        format!("{}.{}", place(self.leaf, subleaf), REGISTERS[self.register])
    }

    /// Where its entry begins: the one that a table takes; of a leaf that no table reads, the first below a count.
    fn entry(&self, pages: &[u8]) -> Option<usize> {
        let standing = Standing::of(pages);
        let other = |place: &&crate::standing::Place| place.below_count && (place.leaf, place.subleaf) == (self.leaf, self.subleaf);
        let found = match kept(self.leaf, self.subleaf) {
            Some(kept) => standing.first(kept.leaf, kept.subleaf),
            None => standing.places.iter().find(other),
        };
        found.map(|place| place.page * PAGE_BYTES + start(place.entry))
    }
}

/// Adds an entry without results behind the last of its page: page 1 for leaf Dh, else page 0. Where it begins.
fn add(pages: &mut Vec<u8>, leaf: u32, subleaf: u32) -> Result<usize, String> {
    let page = usize::from(leaf == STATE) * PAGE_BYTES;
    pages.resize(pages.len().max(page + PAGE_BYTES), 0);
    let count = word(pages, page);
    if count as usize >= PAGE_ENTRIES {
        return Err(format!("page {} has no room for an entry of leaf {}", page / PAGE_BYTES, place(leaf, Some(subleaf))));
    }
    let at = page + start(count as usize);
    pages[page..page + 4].copy_from_slice(&(count + 1).to_le_bytes());
    pages[at..at + 48].fill(0);
    pages[at..at + 4].copy_from_slice(&leaf.to_le_bytes());
    pages[at + 4..at + 8].copy_from_slice(&subleaf.to_le_bytes());
    Ok(at)
}

/// Zeros in the reserved bytes of all entries below their page's count; what was done, in words.
pub fn clear_reserved(pages: &mut [u8]) -> Option<String> {
    let mut cleared = 0;
    for page in pages.chunks_exact_mut(PAGE_BYTES) {
        for entry in 0..PAGE_ENTRIES.min(word(page, 0) as usize) {
            let reserved = &mut page[start(entry) + 40..start(entry) + 48];
            cleared += usize::from(reserved.iter().any(|byte| *byte != 0));
            reserved.fill(0);
        }
    }
    (cleared > 0).then(|| format!("the reserved bytes of {} are zeros", crate::words::counted(cleared as u32, "entry").replace("entrys", "entries")))
}
