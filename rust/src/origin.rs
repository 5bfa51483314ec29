//! Where rows came from.

use crate::answer::Answer;
use crate::{CpuidResult, Refusal, exports};
use core::fmt;

/// Where a row came from: an entry of the pages that were read, or no entry at all.
///
/// ```
/// use snp_cpuid::{Options, Origin, build};
///
/// let pages = std::fs::read("epyc-milan.pages").unwrap();
/// let table = build(&pages, Options::new()).unwrap();
/// for row in table.rows() {
///     println!("{:08X} {:?}: {}", row.leaf, row.subleaf, row.origin);
/// }
///
/// // back to the page by hand: leaf 1 is the second entry of page 0
/// assert_eq!(table.find(1, None).unwrap().origin, Origin::Entry { page: 0, entry: 1 });
/// assert_eq!(pages[16 + 48..][..4], 1u32.to_le_bytes());
/// // the topology is computed
/// assert_eq!(table.find(0xB, Some(1)).unwrap().origin, Origin::MadeHere);
/// ```
#[derive(Clone, Copy, Debug, PartialEq, Eq, Hash)]
#[non_exhaustive]
pub enum Origin {
    /// Made here: leaves 0 and 80000000h, and B.0 and B.1, whether or not the pages have entries for them.
    MadeHere,
    /// An entry of the pages.
    Entry {
        /// the page, from 0
        page: usize,
        /// the entry's position on its page, from 0
        entry: usize,
    },
    /// Nobody knows: the table was read from an image, which does not say.
    Unknown,
}

impl fmt::Display for Origin {
    fn fmt(&self, f: &mut fmt::Formatter<'_>) -> fmt::Result {
        match self {
            Origin::MadeHere => f.write_str("made here"),
            Origin::Entry { page, entry } => write!(f, "page {page} entry {entry}"),
            Origin::Unknown => f.write_str("unknown"),
        }
    }
}

/// What a lookup finds: the registers of a row, and where it came from.
#[derive(Clone, Copy, Debug, PartialEq, Eq, Hash)]
pub struct Found {
    /// the four registers
    pub result: CpuidResult,
    /// where the row came from
    pub origin: Origin,
}

/// The first entry of CPUID pages for a leaf that a table keeps, and for the subleaf where the leaf has them; for other leaves `subleaf` is not
/// looked at. It is an [`Origin::Entry`], or none.
///
/// Whether the pages give a table does not matter, so after a [`Comparison`](crate::Comparison) that names a leaf this tells which entries of the two
/// servers differ. Entries of leaf Dh count on page 1 alone. Pages are refused by 1, 2 and 17.
///
/// # Errors
///
/// [`Refusal::PagesLength`], [`Refusal::PageCount`] and [`Refusal::ReservedBytes`].
///
/// ```
/// use snp_cpuid::{Comparison, Options, Origin, compare, first_entry};
///
/// // B has an empty page first, and Dh where it counts no longer
/// let a = std::fs::read("epyc-milan.pages").unwrap();
/// let b = [&[0; 4096], &a[..]].concat();
/// let Comparison::NoEntry { leaf: 0xD, subleaf: Some(0) } = compare(&a, &b, Options::new()) else { panic!() };
/// assert_eq!(first_entry(&a, 0xD, 0), Ok(Some(Origin::Entry { page: 1, entry: 0 })));
/// assert_eq!(first_entry(&b, 0xD, 0), Ok(None));
/// assert_eq!(first_entry(&b, 1, 0), Ok(Some(Origin::Entry { page: 1, entry: 1 })));
/// ```
pub fn first_entry(pages: &[u8], leaf: u32, subleaf: u32) -> Result<Option<Origin>, Refusal> {
    // SAFETY: the pointer and length are those of a slice, which the function only reads
    let first = unsafe { exports::snp_cpuid_first_entry(pages.as_ptr(), pages.len(), leaf, subleaf) }.accepted()?;
    Ok((first.found != 0).then(|| entry(first.page, first.entry)))
}

/// A page of a slice and a position below 64.
fn entry(page: u64, entry: u32) -> Origin {
    Origin::Entry { page: page as usize, entry: entry as usize }
}

impl Origin {
    /// The origin of a number in a table's memory; none where there is no row. 2, which no function writes, is read as the first entry.
    pub(crate) fn of_number(number: u64) -> Option<Origin> {
        match number {
            0 => None,
            1 => Some(Origin::MadeHere),
            3 => Some(Origin::Unknown),
            _ => {
                let place = number.saturating_sub(4);
                Some(entry(place / 64, (place % 64) as u32))
            }
        }
    }
}

/// Stands on a way that few calls take, so that the compiler asks for it last.
#[inline]
#[cold]
fn rare() {}

impl exports::Found {
    /// The row that a lookup found.
    #[inline]
    pub(crate) fn row(self) -> Option<Found> {
        let origin = if self.origin == 2 {
            entry(self.page, self.entry)
        } else {
            rare();
            match self.origin {
                1 => Origin::MadeHere,
                3 => Origin::Unknown,
                // 0: the library is proved to give no other
                _ => return None,
            }
        };
        Some(Found { result: CpuidResult { eax: self.eax, ebx: self.ebx, ecx: self.ecx, edx: self.edx }, origin })
    }
}

impl exports::GuestFound {
    /// The row that a guest's lookup found.
    #[inline]
    pub(crate) fn row(self) -> Option<Found> {
        let exports::GuestFound { found, eax, ebx, ecx, edx, origin, page, entry, .. } = self;
        exports::Found { found, eax, ebx, ecx, edx, origin, page, entry }.row()
    }
}
