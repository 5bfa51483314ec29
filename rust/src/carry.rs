//! A running table taken from one edition of the AVX rule to another.

use crate::{Details, Refusal, Table, exports};
use core::error::Error;
use core::fmt;

/// Why bytes were not carried.
#[derive(Clone, Copy, Debug, PartialEq, Eq, Hash)]
pub enum NotCarried {
    /// They are no table's image. It is no numbered refusal, and comes before them all.
    NotAnImage,
    /// Their table is refused: by 15, 16, 13 or 14, in this order.
    Refused(Refusal),
}

impl Table {
    /// The table taken from edition `from` of the AVX rule, under which it was built, to edition `to`, on a processor with this XCR0 and XSS.
    ///
    /// From 1 to 2 it is the table that edition 2 makes of the same pages, and the save sizes of the processor's guest stay what they were. Within
    /// one edition it is the same table. Where its rows came from stays unchanged. [`Refusal::UnknownEdition`] comes first, then
    /// [`Refusal::EditionBack`] to an earlier one, then [`Refusal::StateBeyondTable`] and [`Refusal::CompactSizeTooLarge`], which a guest of this
    /// processor would have too.
    ///
    /// # Errors
    ///
    /// [`Refusal::UnknownEdition`], [`Refusal::EditionBack`], [`Refusal::StateBeyondTable`] and [`Refusal::CompactSizeTooLarge`], in this order.
    ///
    /// ```
    /// use snp_cpuid::{Options, Refusal, build};
    ///
    /// // a server without YMM state, bit 2 of D.0.EAX: D.0 is the first entry of page 1
    /// let mut pages = std::fs::read("epyc-milan.pages").unwrap();
    /// assert_eq!(pages[4096 + 16..][..8], [0xD, 0, 0, 0, 0, 0, 0, 0]);
    /// pages[4096 + 16 + 24] = 3;
    ///
    /// let running = build(&pages, Options::new()).unwrap();
    /// let carried = running.carry(1, 2, 3, 0x800).unwrap();
    /// assert_eq!(carried, build(&pages, Options::new().edition(2)).unwrap());
    /// // F16C, which edition 1 leaves
    /// let f16c = |table: &snp_cpuid::Table| table.row(1, None).unwrap().ecx >> 29 & 1;
    /// assert_eq!((f16c(&running), f16c(&carried)), (1, 0));
    ///
    /// assert_eq!(carried.carry(2, 2, 3, 0x800).as_ref(), Ok(&carried));
    /// assert_eq!(carried.carry(2, 1, 3, 0x800), Err(Refusal::EditionBack));
    /// assert_eq!(running.carry(1, 2, 7, 0x800), Err(Refusal::StateBeyondTable));
    /// ```
    pub fn carry(&self, from: u32, to: u32, xcr0: u64, xss: u64) -> Result<Table, Refusal> {
        let mut table = self.clone();
        table.carry_in_place(from, to, xcr0, xss)?;
        Ok(table)
    }

    /// The same in place. Where it refuses, the table is as it was.
    ///
    /// # Errors
    ///
    /// As [`Table::carry`]; the table is then as it was.
    pub fn carry_in_place(&mut self, from: u32, to: u32, xcr0: u64, xss: u64) -> Result<(), Refusal> {
        let (registers, origins) = self.arrays_mut();
        // SAFETY: the two arrays are the table's own, and the function writes the first and only reads the second
        match unsafe { exports::snp_cpuid_table_carry(registers, origins, from, to, xcr0, xss) } {
            0 => Ok(()),
            number => Err(Refusal::of(number, Details::default())),
        }
    }
}

/// The same for a table handed over as its image, [`Table::image`], which is rewritten in place. It may be any table's, also one that was built
/// otherwise: the bits that the later edition clears besides are cleared where its own D.0.EAX lacks bit 2, and nothing else changes; rows that it
/// lacks read as zeros. Where the answer is an error, the bytes are as they were.
///
/// # Errors
///
/// [`NotCarried::NotAnImage`], or the refusals of [`Table::carry`]; the bytes are then as they were.
///
/// ```
/// use snp_cpuid::{NotCarried, Options, Refusal, build, carry_image};
///
/// let pages = std::fs::read("epyc-milan.pages").unwrap();
/// let mut image = build(&pages, Options::new()).unwrap().image().to_vec();
/// // where the YMM state is there, the editions are one
/// assert_eq!(carry_image(&mut image, 1, 2, 7, 0x800), Ok(()));
/// assert_eq!(build(&pages, Options::new().edition(2)).unwrap().image(), image);
///
/// // a byte too many is no image; no bytes are the image of a table without rows, which has no state
/// image.push(0);
/// assert_eq!(carry_image(&mut image, 1, 2, 7, 0x800), Err(NotCarried::NotAnImage));
/// assert_eq!(carry_image(&mut [], 1, 2, 1, 0), Err(NotCarried::Refused(Refusal::StateBeyondTable)));
/// ```
pub fn carry_image(image: &mut [u8], from: u32, to: u32, xcr0: u64, xss: u64) -> Result<(), NotCarried> {
    // SAFETY: the pointer and length are those of a slice, and the function reads and writes within it
    let carried = unsafe { exports::snp_cpuid_carry(image.as_mut_ptr(), image.len(), from, to, xcr0, xss) };
    match (carried.is_image, carried.number) {
        (0, _) => Err(NotCarried::NotAnImage),
        (_, 0) => Ok(()),
        (_, number) => Err(NotCarried::Refused(Refusal::of(number, Details::default()))),
    }
}

impl fmt::Display for NotCarried {
    fn fmt(&self, f: &mut fmt::Formatter<'_>) -> fmt::Result {
        match self {
            NotCarried::NotAnImage => f.write_str("the bytes are no table's image"),
            NotCarried::Refused(refusal) => refusal.fmt(f),
        }
    }
}

impl Error for NotCarried {}
