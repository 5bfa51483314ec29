//! The nearest bit that matters.

use crate::answer::Answer;
use crate::{Options, PAGE_BYTES, Refusal, Register, exports};

/// One result bit of an entry of a page set. Page, entry and bit are counted from 0.
#[derive(Clone, Copy, Debug, PartialEq, Eq, Hash)]
pub struct Bit {
    /// the page
    pub page: usize,
    /// the entry's position on its page
    pub entry: usize,
    /// the register of its result
    pub register: Register,
    /// the bit of that register
    pub bit: u32,
}

impl Bit {
    /// Where the entry begins in its page set.
    #[must_use]
    pub fn entry_start(&self) -> usize {
        PAGE_BYTES * self.page + 16 + 48 * self.entry
    }

    /// Flips the bit in its page set. The library does not write the pages; this shows what the bit decides.
    ///
    /// # Panics
    ///
    /// Where the pages end before the bit, which is then none of theirs.
    ///
    /// # Panics
    ///
    /// Where the pages do not have the bit.
    pub fn flip(&self, pages: &mut [u8]) {
        // EAX at 24 of the entry, EBX at 28, ECX at 32, EDX at 36, little-endian
        pages[self.entry_start() + 24 + 4 * self.register as usize + self.bit as usize / 8] ^= 1 << (self.bit % 8);
    }
}

/// The first result bit, in entries below their page's count and ordered by page, entry, register and bit, whose flip alone makes [`build`] answer
/// otherwise: another table, refusal or detail.
///
/// [`Refusal::UnknownEdition`] comes first, then 1, 2 and 17 as [`build`] has them; then [`Refusal::NothingDecides`] where no flip changes anything,
/// which is so exactly where building gives 3 for a leaf that every table has.
///
/// # Errors
///
/// [`Refusal::UnknownEdition`], [`Refusal::PagesLength`], [`Refusal::PageCount`], [`Refusal::ReservedBytes`] and [`Refusal::NothingDecides`], in this
/// order.
///
/// ```
/// use snp_cpuid::{Bit, Options, Refusal, Register, build, nearest};
///
/// let mut pages = std::fs::read("epyc-milan.pages").unwrap();
/// // its first entry is of leaf 0, which is made here; the second, leaf 1, is in the table from bit 0 of EAX on
/// assert_eq!(nearest(&pages, Options::new()), Ok(Bit { page: 0, entry: 1, register: Register::Eax, bit: 0 }));
///
/// // a server without INVLPGB, bit 3 of 80000008h.EBX, is refused, and no other bit changes that
/// let bit = Bit { page: 0, entry: 19, register: Register::Ebx, bit: 3 };
/// assert_eq!(pages[bit.entry_start()..][..4], 0x8000_0008u32.to_le_bytes());
/// bit.flip(&mut pages);
/// assert_eq!(build(&pages, Options::new()), Err(Refusal::InvlpgbUnavailable));
/// assert_eq!(nearest(&pages, Options::new()), Ok(bit));
///
/// // a page without entries: leaf 1 is missing, and there is no bit to flip
/// assert_eq!(nearest(&[0; 4096], Options::new()), Err(Refusal::NothingDecides));
/// ```
///
/// [`build`]: crate::build
pub fn nearest(pages: &[u8], options: Options) -> Result<Bit, Refusal> {
    let Options { secure_avic, edition } = options;
    // SAFETY: the pointer and length are those of a slice, which the function only reads
    let found = unsafe { exports::snp_cpuid_nearest(pages.as_ptr(), pages.len(), secure_avic, edition) }.accepted()?;
    let register = Register::from_index(found.register_index);
    Ok(Bit { page: found.page as usize, entry: found.entry as usize, register, bit: found.bit })
}
