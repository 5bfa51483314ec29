//! The CPUID table of an AMD SEV-SNP guest, over a library proved right for every input.
//!
//! ```
//! let pages = std::fs::read("epyc-milan.pages").unwrap();
//! let table = snp_cpuid::build(&pages, snp_cpuid::Options::new()).unwrap();
//! // leaf 1, EDX bit 28: hyperthreading
//! assert_eq!(table.row(1, None).unwrap().edx >> 28 & 1, 1);
//!
//! // no pages at all
//! let refusal = snp_cpuid::build(&[], snp_cpuid::Options::new()).unwrap_err();
//! assert_eq!(refusal, snp_cpuid::Refusal::PagesLength);
//! println!("refusal {}: {refusal}", refusal.number());
//! ```
//!
//! A [`Table`] is built once and kept: [`Table::guest_row`] answers a CPUID exit, [`Table::compare`] says whether a guest may move, [`Table::carry`]
//! takes it to another edition, [`Table::image`] and [`Table::write_kvm`] write it, [`Table::fingerprint`] tells it apart from
//! others. The functions of this root that take pages build anew at each
//! call.
//!
//! What is proved is what the library's exported functions return (the repository's README has the statements). This crate turns their numbers into
//! Rust's types; its tests hold the rows of a table against the library's own answers.
//!
//! Without the default feature `std` the crate needs neither the standard library nor an allocator; what gives a `String` or a `Vec`, or takes page
//! sets apart from each other, is then left out.

#![cfg_attr(not(feature = "std"), no_std)]

mod answer;
#[cfg(snp_cpuid_assembly)]
mod assembly;
mod carry;
mod comparison;
pub mod exports;
pub mod features;
mod fingerprint;
mod guest;
mod image;
mod kvm;
mod line;
mod nearest;
mod options;
mod origin;
mod places;
mod pool;
mod refusal;
mod refusal_list;
mod table;
mod topologies;

use answer::Answer;

pub use carry::{NotCarried, carry_image};
pub use comparison::{Comparison, Register, TableComparison};
pub use fingerprint::{FINGERPRINT_BYTES, Fingerprint, NotAFingerprint, fingerprint};
pub use guest::{Processor, State, guest, guest_lookup, write_guest_image};
pub use image::{ANY_IMAGE_BYTES, ANY_KVM_BYTES, Image, NotAnImage};
pub use kvm::{KVM_PAGES_BYTES, MOST_KVM_BYTES, read_kvm, write_kvm};
pub use line::NoSuchLine;
pub use nearest::{Bit, nearest};
pub use options::Options;
pub use origin::{Found, Origin, first_entry};
pub use places::PLACES;
pub use pool::{MOST_SERVERS, NotPooled};
#[cfg(feature = "std")]
pub use pool::{pool, pool_lookup, write_pool_image};
pub use refusal::{Details, Refusal, TopologyError};
pub use table::{CpuidResult, Row, Rows, Table};
#[cfg(feature = "std")]
pub use topologies::topologies;
pub use topologies::{TOPOLOGIES_BYTES, Topology, write_topologies};

/// The bytes of a CPUID page.
pub const PAGE_BYTES: usize = 4096;

/// The most bytes that the image of a table can have that is built or pooled.
pub const MOST_IMAGE_BYTES: usize = 732;

/// The most rows that a table can have that is built or pooled.
pub const MOST_ROWS: usize = 32;

/// The most bytes that a refusal's line can have.
pub const MOST_LINE_BYTES: usize = 22;

/// Builds the table of CPUID pages that stand end to end, as [`Table::build`] does.
///
/// # Errors
///
/// The refusal of the pages, or of the edition.
pub fn build(pages: &[u8], options: Options) -> Result<Table, Refusal> {
    Table::build(pages, options)
}

/// Writes the image of CPUID pages to the front of `out` and gives its length. Where it refuses, `out` is as it was; bytes beyond the image are as
/// they were.
///
/// # Errors
///
/// The refusal of building, then [`Refusal::BufferTooShort`]; [`MOST_IMAGE_BYTES`] always suffice.
pub fn write_image(pages: &[u8], options: Options, out: &mut [u8]) -> Result<usize, Refusal> {
    let Options { secure_avic, edition } = options;
    // SAFETY: both pointers and lengths are those of slices; the function reads the first and writes within the second
    let written = unsafe { exports::snp_cpuid_write_image(pages.as_ptr(), pages.len(), secure_avic, edition, out.as_mut_ptr(), out.len()) };
    written.accepted().map(|written| written.length as usize)
}

/// Builds and looks one row up, both in the library. [`Table::lookup`] gives the same and builds once.
#[must_use]
pub fn lookup(pages: &[u8], options: Options, leaf: u32, subleaf: Option<u32>, enforce_subleaf: bool) -> Option<Found> {
    let Options { secure_avic, edition } = options;
    let (named, subleaf) = (subleaf.is_some(), subleaf.unwrap_or(0));
    // SAFETY: the pointer and length are those of a slice, which the function only reads
    let found = unsafe { exports::snp_cpuid_lookup(pages.as_ptr(), pages.len(), secure_avic, edition, leaf, named, subleaf, enforce_subleaf) };
    found.row()
}

/// Compares two servers by their pages, under the same options: have the entries of `b` at least what the table of `a` has? After a yes, a guest of
/// `a` may move to the table of `b`, where building gives one: it may still refuse `b`, by 3 or 5. What is said of a pair holds under any edition.
///
/// ```
/// use snp_cpuid::{Comparison, Options, Register, compare};
///
/// let a = std::fs::read("epyc-milan.pages").unwrap();
/// assert_eq!(compare(&a, &a, Options::new()), Comparison::Rises);
///
/// // a server without FMA, bit 12 of 1.ECX; leaf 1 is the second entry of page 0
/// let mut b = a.clone();
/// assert_eq!(b[64..68], 1u32.to_le_bytes());
/// b[64 + 32 + 1] &= !0x10;
/// let answer = compare(&a, &b, Options::new().edition(2));
/// assert_eq!(answer, Comparison::Differs { leaf: 1, subleaf: None, register: Register::Ecx });
/// assert_eq!(answer.to_string(), "B's 1h.ECX lacks a feature bit of A's, or differs from A's where it must be equal");
///
/// // the server with FMA has at least what the one without has
/// assert_eq!(compare(&b, &a, Options::new()), Comparison::Rises);
/// ```
pub fn compare(a: &[u8], b: &[u8], options: Options) -> Comparison {
    let Options { secure_avic, edition } = options;
    // SAFETY: both pointers and lengths are those of slices, which the function only reads
    Comparison::from_numbers(unsafe { exports::snp_cpuid_compare(a.as_ptr(), a.len(), b.as_ptr(), b.len(), secure_avic, edition) })
}
