//! Lists for and from KVM: a table as `struct kvm_cpuid2`, and such a list as pages.

use crate::answer::Answer;
use crate::{MOST_ROWS, Options, PAGE_BYTES, Refusal, exports};

/// The most bytes that a table's list can have: a count and a zero word, and 40 bytes a row.
pub const MOST_KVM_BYTES: usize = 8 + 40 * MOST_ROWS;

/// The bytes that reading a list writes: two pages.
pub const KVM_PAGES_BYTES: usize = 2 * PAGE_BYTES;

/// Builds the table of CPUID pages, writes it to the front of `out` as `struct kvm_cpuid2` and gives its length. Where it refuses, `out` is as it
/// was; bytes beyond the list are as they were.
///
/// # Errors
///
/// The refusal of building, then [`Refusal::BufferTooShort`].
///
/// ```
/// let pages = std::fs::read("epyc-milan.pages").unwrap();
/// let mut list = [0; snp_cpuid::MOST_KVM_BYTES];
/// let length = snp_cpuid::write_kvm(&pages, snp_cpuid::Options::new(), &mut list).unwrap();
/// // 29 rows: the count, then function 0 with index 0, flags 0 and the highest leaf
/// assert_eq!(length, 8 + 40 * 29);
/// assert_eq!(list[..24], [29, 0, 0, 0, 0, 0, 0, 0, 0, 0, 0, 0, 0, 0, 0, 0, 0, 0, 0, 0, 0xD, 0, 0, 0]);
/// ```
pub fn write_kvm(pages: &[u8], options: Options, out: &mut [u8]) -> Result<usize, Refusal> {
    let Options { secure_avic, edition } = options;
    // SAFETY: both pointers and lengths are those of slices; the function reads the first and writes within the second
    let written = unsafe { exports::snp_cpuid_write_kvm(pages.as_ptr(), pages.len(), secure_avic, edition, out.as_mut_ptr(), out.len()) };
    written.accepted().map(|written| written.length as usize)
}

/// Reads a `struct kvm_cpuid2` into two pages at the front of `out`, leaf Dh on page 1 and all others on page 0, and gives their length. Where it
/// refuses, `out` is as it was; bytes beyond the pages are as they were.
///
/// # Errors
///
/// [`Refusal::ListLength`], [`Refusal::ListFields`], [`Refusal::ListRows`] and [`Refusal::BufferTooShort`], in this order.
///
/// ```
/// let pages = std::fs::read("epyc-milan.pages").unwrap();
/// let options = snp_cpuid::Options::new().edition(2);
/// let mut list = [0; snp_cpuid::MOST_KVM_BYTES];
/// let length = snp_cpuid::write_kvm(&pages, options, &mut list).unwrap();
///
/// // read and built again under the same options, the table is the same
/// let mut again = [0; snp_cpuid::KVM_PAGES_BYTES];
/// snp_cpuid::read_kvm(&list[..length], &mut again).unwrap();
/// assert_eq!(snp_cpuid::build(&again, options), snp_cpuid::build(&pages, options));
/// // its rows came from the pages that were read: leaf 80000001h is the eighth row of the list, leaf Dh left out
/// let origin = snp_cpuid::build(&again, options).unwrap().find(0x8000_0001, None).unwrap().origin;
/// assert_eq!(origin, snp_cpuid::Origin::Entry { page: 0, entry: 7 });
///
/// // a byte too many
/// assert_eq!(snp_cpuid::read_kvm(&list[..length + 1], &mut again), Err(snp_cpuid::Refusal::ListLength));
/// ```
pub fn read_kvm(list: &[u8], out: &mut [u8]) -> Result<usize, Refusal> {
    // SAFETY: both pointers and lengths are those of slices; the function reads the first and writes within the second
    let written = unsafe { exports::snp_cpuid_read_kvm(list.as_ptr(), list.len(), out.as_mut_ptr(), out.len()) };
    written.accepted().map(|written| written.length as usize)
}
