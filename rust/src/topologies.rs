//! Every topology that building accepts up to size seven.

use crate::answer::Answer;
use crate::{Refusal, exports};

/// The bytes of the list: five for each of 1,019.
pub const TOPOLOGIES_BYTES: usize = 5 * 1019;

/// The five numbers that describe a server's topology, as its CPUID pages have them.
#[derive(Clone, Copy, Debug, PartialEq, Eq, PartialOrd, Ord, Hash)]
pub struct Topology {
    /// how many bits of an APIC number the cores of a socket take, 0 where the server does not say: 80000008h.ECX bits 12-15
    pub s: u8,
    /// how many processors a socket has, less one: 80000008h.ECX bits 0-7
    pub nc: u8,
    /// how many logical processors a socket has: 1.EBX bits 16-23
    pub lps: u8,
    /// whether it has more than one, or may have: 1.EDX bit 28
    pub mt: bool,
    /// how many threads a core has, less one: 8000001Eh.EBX bits 8-15
    pub t: u8,
}

/// All topologies that building accepts with s up to 7, ascending by s, nc, lps, mt and t in turn. Pages with one of them are refused by none of 6, 7
/// and 8, and no other pages with such an s are accepted.
///
/// ```
/// use snp_cpuid::{Topology, topologies};
///
/// let all = topologies();
/// assert_eq!(all.len(), 1019);
/// assert_eq!(all.iter().filter(|topology| topology.s == 0).count(), 511);
/// assert!(all.is_sorted_by(|a, b| a < b));
///
/// // three processors, two threads a core; nc and lps disagree
/// assert!(all.contains(&Topology { s: 0, nc: 2, lps: 3, mt: true, t: 1 }));
/// assert!(!all.contains(&Topology { s: 0, nc: 3, lps: 3, mt: true, t: 1 }));
/// ```
#[must_use]
#[cfg(feature = "std")]
pub fn topologies() -> Vec<Topology> {
    let mut bytes = [0; TOPOLOGIES_BYTES];
    let length = write_topologies(&mut bytes).expect("there is room for the list");
    let inputs = |record: &[u8]| Topology { s: record[0], nc: record[1], lps: record[2], mt: record[3] == 1, t: record[4] };
    bytes[..length].chunks_exact(5).map(inputs).collect()
}

/// Writes the list to the front of `out`, the five numbers of each as bytes, and gives its length, [`TOPOLOGIES_BYTES`]. Where `out` is shorter it is
/// as it was, and the answer is [`Refusal::BufferTooShort`]; bytes beyond the list are as they were.
///
/// # Errors
///
/// [`Refusal::BufferTooShort`] where `out` has less than [`TOPOLOGIES_BYTES`].
///
/// ```
/// use snp_cpuid::{Refusal, TOPOLOGIES_BYTES, write_topologies};
///
/// let mut out = [0xA5; TOPOLOGIES_BYTES + 1];
/// assert_eq!(write_topologies(&mut out[..TOPOLOGIES_BYTES - 1]), Err(Refusal::BufferTooShort));
/// assert_eq!(out, [0xA5; TOPOLOGIES_BYTES + 1]);
///
/// assert_eq!(write_topologies(&mut out), Ok(TOPOLOGIES_BYTES));
/// assert_eq!(out[..10], [0, 0, 0, 0, 0, 0, 0, 1, 0, 0]);
/// assert_eq!(out[TOPOLOGIES_BYTES - 5..], [7, 127, 128, 1, 1, 0xA5]);
/// ```
pub fn write_topologies(out: &mut [u8]) -> Result<usize, Refusal> {
    // SAFETY: the pointer and length are those of a slice, and the function writes within it
    let written = unsafe { exports::snp_cpuid_write_topologies(out.as_mut_ptr(), out.len()) };
    written.accepted().map(|written| written.length as usize)
}
