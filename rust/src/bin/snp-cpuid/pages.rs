//! Rows into CPUID pages (SEV-SNP firmware ABI; document 01, "Page bytes").

use crate::masks::kept;
use snp_cpuid::PAGE_BYTES;

/// The entries that a page holds.
pub const PAGE_ENTRIES: usize = 64;

/// The leaf of extended states, which counts on page 1 alone.
pub const STATE: u32 = 0xD;

/// One entry of a page: what CPUID gives for a leaf and subleaf.
#[derive(PartialEq, Eq, Hash)]
pub struct Entry {
    pub leaf: u32,
    pub subleaf: u32,
    pub registers: [u32; 4],
}

/// Whether the table reads entries of this leaf and subleaf.
pub fn read_by_table(leaf: u32, subleaf: u32) -> bool {
    kept(leaf, subleaf).is_some()
}

/// Two pages: leaf Dh on page 1, where alone it counts, and all others on page 0, each in the order given.
pub fn two_pages(rows: &[Entry]) -> Result<Vec<u8>, String> {
    let (state, others): (Vec<&Entry>, Vec<&Entry>) = rows.iter().partition(|row| row.leaf == STATE);
    let mut pages = Vec::with_capacity(2 * PAGE_BYTES);
    for (number, rows) in [others, state].into_iter().enumerate() {
        if rows.len() > PAGE_ENTRIES {
            return Err(format!("{} rows for page {number}, and a page holds {PAGE_ENTRIES}", rows.len()));
        }
        pages.extend(page(&rows));
    }
    Ok(pages)
}

/// A page: the count at 0, then from 16 entries of 48 bytes, EAX_IN at 0, ECX_IN at 4 and the four results from 24; all else zero.
fn page(rows: &[&Entry]) -> Vec<u8> {
    let mut bytes = vec![0; PAGE_BYTES];
    let mut put = |at: usize, number: u32| bytes[at..at + 4].copy_from_slice(&number.to_le_bytes());
    put(0, rows.len() as u32);
    for (index, row) in rows.iter().enumerate() {
        let at = 16 + 48 * index;
        put(at, row.leaf);
        put(at + 4, row.subleaf);
        for (register, value) in row.registers.iter().enumerate() {
            put(at + 24 + 4 * register, *value);
        }
    }
    bytes
}
