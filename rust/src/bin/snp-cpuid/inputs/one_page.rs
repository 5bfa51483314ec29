//! A set of one page, as QEMU, OVMF and Linux have it: leaf Dh stands on it too, where OpenHCL has a page for it.

use super::{first_word, word_at};
use crate::pages::{PAGE_ENTRIES, STATE};
use crate::standing::start;
use snp_cpuid::PAGE_BYTES;

/// What is said of such a set.
pub const NOTE: &str = "one page, as QEMU, OVMF and Linux have it: its entries of leaf Dh are laid out on a page 1 of their own";

/// Whether it is one page with an entry of leaf Dh.
pub fn is(bytes: &[u8]) -> bool {
    bytes.len() == PAGE_BYTES && entries(bytes).any(is_state)
}

/// Two pages: the entries of leaf Dh on page 1 and all others on page 0, each as it stands and in its order. A page that counts more than it has
/// room for stays as it is, and so does one without leaf Dh.
pub fn laid_out(page: &[u8]) -> Vec<u8> {
    if !is(page) {
        return page.to_vec();
    }
    let (state, others): (Vec<&[u8]>, Vec<&[u8]>) = entries(page).partition(|entry| is_state(entry));
    let of = |entries: &[&[u8]], head: &[u8]| {
        let mut bytes = [&(entries.len() as u32).to_le_bytes()[..], head, &entries.concat()].concat();
        bytes.resize(PAGE_BYTES, 0);
        bytes
    };
    [of(&others, &page[4..16]), of(&state, &[0; 12])].concat()
}

/// The entries below the count; none where that is too large.
fn entries(page: &[u8]) -> impl Iterator<Item = &[u8]> {
    let count = first_word(page).filter(|count| *count as usize <= PAGE_ENTRIES).unwrap_or(0) as usize;
    (0..count).map(|entry| &page[start(entry)..start(entry) + 48])
}

fn is_state(entry: &[u8]) -> bool {
    word_at(entry, 0) == Some(STATE)
}
