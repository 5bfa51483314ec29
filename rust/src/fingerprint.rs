//! The fingerprint of a table.

use crate::answer::Answer;
use crate::{Options, Refusal, Table, exports};
use core::error::Error;
use core::fmt;
use core::str::FromStr;

/// The bytes of a fingerprint.
pub const FINGERPRINT_BYTES: usize = 32;

/// The fingerprint of a table: the SHA-256 of its image, 64 hexadecimal digits in print. Equal tables have one fingerprint; tables with one
/// fingerprint are equal, unless their images are a collision of SHA-256.
///
/// ```
/// use snp_cpuid::{Fingerprint, Options, Table};
///
/// let pages = std::fs::read("epyc-milan.pages").unwrap();
/// let table = Table::build(&pages, Options::new()).unwrap();
/// let fingerprint = table.fingerprint();
/// // what sha256sum prints of the image
/// assert_eq!(fingerprint.to_string(), "18a69858efbc8500ce6cfc1fe79e04adaaa9e75a36de1f72e208f7402b289eeb");
/// // the first digits are enough to tell the tables of one fleet apart
/// assert_eq!(format!("{fingerprint:.8}"), "18a69858");
/// assert_eq!(fingerprint.to_string().parse::<Fingerprint>(), Ok(fingerprint));
/// ```
#[derive(Clone, Copy, PartialEq, Eq, PartialOrd, Ord, Hash)]
pub struct Fingerprint([u8; FINGERPRINT_BYTES]);

impl Fingerprint {
    /// Its 32 bytes.
    pub const fn bytes(&self) -> &[u8; FINGERPRINT_BYTES] {
        &self.0
    }
}

impl From<[u8; FINGERPRINT_BYTES]> for Fingerprint {
    fn from(bytes: [u8; FINGERPRINT_BYTES]) -> Fingerprint {
        Fingerprint(bytes)
    }
}

/// The fingerprint of the table of CPUID pages, built in the library. [`Table::fingerprint`] gives the same of a table that stands.
///
/// ```
/// use snp_cpuid::{Options, Refusal, Table, fingerprint};
///
/// let pages = std::fs::read("epyc-milan.pages").unwrap();
/// let table = Table::build(&pages, Options::new()).unwrap();
/// assert_eq!(fingerprint(&pages, Options::new()), Ok(table.fingerprint()));
/// assert_eq!(fingerprint(&[], Options::new()), Err(Refusal::PagesLength));
/// ```
pub fn fingerprint(pages: &[u8], options: Options) -> Result<Fingerprint, Refusal> {
    let Options { secure_avic, edition } = options;
    let mut digest = [0; FINGERPRINT_BYTES];
    // SAFETY: the first pointer and length are those of a slice, which the function only reads; it writes the 32 bytes of the array
    unsafe { exports::snp_cpuid_fingerprint(pages.as_ptr(), pages.len(), secure_avic, edition, digest.as_mut_ptr()) }.accepted()?;
    Ok(Fingerprint(digest))
}

impl Table {
    /// Its fingerprint. Where the rows came from does not count.
    pub fn fingerprint(&self) -> Fingerprint {
        let (registers, origins) = self.arrays();
        let mut digest = [0; FINGERPRINT_BYTES];
        // SAFETY: the two arrays are the table's own and only read; the function writes the 32 bytes of the array
        unsafe { exports::snp_cpuid_table_fingerprint(registers, origins, digest.as_mut_ptr()) };
        Fingerprint(digest)
    }
}

/// In hexadecimal, as sha256sum prints it; with a precision that many digits of it, from the front.
impl fmt::Display for Fingerprint {
    fn fmt(&self, f: &mut fmt::Formatter<'_>) -> fmt::Result {
        let digits = f.precision().unwrap_or(2 * FINGERPRINT_BYTES).min(2 * FINGERPRINT_BYTES);
        (0..digits).try_for_each(|digit| write!(f, "{:x}", self.0[digit / 2] >> (4 * (1 - digit % 2)) & 0xF))
    }
}

impl fmt::Debug for Fingerprint {
    fn fmt(&self, f: &mut fmt::Formatter<'_>) -> fmt::Result {
        write!(f, "Fingerprint({self})")
    }
}

/// A text that is no fingerprint.
#[derive(Clone, Copy, Debug, PartialEq, Eq, Hash)]
pub struct NotAFingerprint;

/// Reads 64 hexadecimal digits, small or capital.
impl FromStr for Fingerprint {
    type Err = NotAFingerprint;

    fn from_str(text: &str) -> Result<Fingerprint, NotAFingerprint> {
        let digits = text.as_bytes();
        let mut bytes = [0; FINGERPRINT_BYTES];
        if digits.len() != 2 * FINGERPRINT_BYTES {
            return Err(NotAFingerprint);
        }
        for (byte, pair) in bytes.iter_mut().zip(digits.chunks_exact(2)) {
            let digit = |at: usize| char::from(pair[at]).to_digit(16).ok_or(NotAFingerprint);
            *byte = (digit(0)? * 16 + digit(1)?) as u8;
        }
        Ok(Fingerprint(bytes))
    }
}

impl fmt::Display for NotAFingerprint {
    fn fmt(&self, f: &mut fmt::Formatter<'_>) -> fmt::Result {
        f.write_str("a fingerprint is 64 hexadecimal digits")
    }
}

impl Error for NotAFingerprint {}
