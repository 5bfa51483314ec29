//! A refusal as one line of ASCII, and back: both are the library's.

#[cfg(feature = "std")]
use crate::MOST_LINE_BYTES;
use crate::Refusal;
use crate::answer::Answer;
use crate::exports;
use core::error::Error;
use core::fmt;
use core::str::FromStr;

/// Bytes that are no refusal's line. It is no numbered refusal.
#[derive(Clone, Copy, Debug, PartialEq, Eq, Hash)]
pub struct NoSuchLine;

impl Refusal {
    /// Its line: the number, then the details that it names, each after one space, and a newline. [`Refusal::from_str`] reads it back.
    ///
    /// ```
    /// use snp_cpuid::{NoSuchLine, Refusal, TopologyError};
    ///
    /// let missing = Refusal::MissingRequiredResult(0xD, Some(12));
    /// assert_eq!(missing.line(), "3 0000000D 12\n");
    /// assert_eq!("3 0000000D 12\n".parse(), Ok(missing));
    ///
    /// // an s of 0 is written too, and a subleaf of none is left out
    /// assert_eq!(Refusal::TopologyInconsistent(TopologyError::Hyperthreading(0)).line(), "6 0\n");
    /// assert_eq!(Refusal::MissingRequiredResult(1, None).line(), "3 00000001\n");
    /// assert_eq!(Refusal::ReservedBytes { leaf: 0xD }.line(), "17 0000000D\n");
    ///
    /// // small letters, leading zeros and bytes beyond the newline are no line
    /// assert_eq!("3 0000000d 12\n".parse::<Refusal>(), Err(NoSuchLine));
    /// ```
    #[must_use]
    #[cfg(feature = "std")]
    pub fn line(&self) -> String {
        let mut out = [0; MOST_LINE_BYTES];
        let length = self.write_line(&mut out).expect("every refusal has a line of at most 22 bytes");
        String::from_utf8(out[..length].to_vec()).expect("ASCII")
    }

    /// Writes its line to the front of `out` and gives its length, at most [`MOST_LINE_BYTES`](crate::MOST_LINE_BYTES). Where `out` is shorter it is
    /// as it was, and the answer is [`Refusal::BufferTooShort`]; bytes beyond the line are as they were.
    ///
    /// # Errors
    ///
    /// [`Refusal::BufferTooShort`]; [`MOST_LINE_BYTES`](crate::MOST_LINE_BYTES) always suffice.
    pub fn write_line(&self, out: &mut [u8]) -> Result<usize, Refusal> {
        let (number, details) = (self.number(), self.details());
        let (has_subleaf, subleaf) = (details.subleaf.is_some(), details.subleaf.unwrap_or(0));
        // SAFETY: the pointer and length are those of a slice, and the function writes within it
        let written =
            unsafe { exports::snp_cpuid_write_line(number, details.leaf, has_subleaf, subleaf, details.s.into(), out.as_mut_ptr(), out.len()) };
        assert_eq!(written.is_line, 1, "every refusal has a line");
        if written.number == 0 { Ok(written.length as usize) } else { Err(Refusal::BufferTooShort) }
    }

    /// The refusal whose line these bytes are, the whole of them.
    ///
    /// # Errors
    ///
    /// [`NoSuchLine`] where the bytes are not the whole of a line.
    pub fn from_line(line: &[u8]) -> Result<Refusal, NoSuchLine> {
        // SAFETY: the pointer and length are those of a slice, which the function only reads
        let read = unsafe { exports::snp_cpuid_read_line(line.as_ptr(), line.len()) };
        match read.is_line {
            0 => Err(NoSuchLine),
            _ => Refusal::named(read.number, read.details()).ok_or(NoSuchLine),
        }
    }
}

impl FromStr for Refusal {
    type Err = NoSuchLine;

    fn from_str(line: &str) -> Result<Refusal, NoSuchLine> {
        Refusal::from_line(line.as_bytes())
    }
}

impl fmt::Display for NoSuchLine {
    fn fmt(&self, f: &mut fmt::Formatter<'_>) -> fmt::Result {
        f.write_str("no such line")
    }
}

impl Error for NoSuchLine {}
