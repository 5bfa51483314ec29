//! What the guest of one processor sees.

use crate::answer::Answer;
use crate::exports;
use crate::{Details, Found, Options, Refusal, Table};

/// A processor, as far as a guest's CPUID shows it.
///
/// ```
/// use snp_cpuid::Processor;
///
/// let processor = Processor::new(5).xcr0(7).xss(0x800).osxsave(true);
/// assert_eq!((processor.x2apic, processor.xcr0, processor.xss, processor.osxsave), (5, 7, 0x800, true));
/// ```
#[derive(Clone, Copy, Debug, Default, PartialEq, Eq, Hash)]
#[non_exhaustive]
pub struct Processor {
    /// its x2APIC number
    pub x2apic: u32,
    /// XCR0: the user states that are on
    pub xcr0: u64,
    /// XSS: the supervisor states that are on
    pub xss: u64,
    /// whether the operating system has switched XSAVE on (CR4 bit 18)
    pub osxsave: bool,
}

impl Processor {
    /// The processor of an x2APIC number as it starts: XCR0 is 1, XSS 0, and XSAVE is not switched on.
    #[must_use]
    pub const fn new(x2apic: u32) -> Processor {
        Processor { x2apic, xcr0: 1, xss: 0, osxsave: false }
    }

    /// With this XCR0.
    #[must_use]
    pub const fn xcr0(self, xcr0: u64) -> Processor {
        Processor { xcr0, ..self }
    }

    /// With this XSS.
    #[must_use]
    pub const fn xss(self, xss: u64) -> Processor {
        Processor { xss, ..self }
    }

    /// With XSAVE switched on by the operating system, or not.
    #[must_use]
    pub const fn osxsave(self, osxsave: bool) -> Processor {
        Processor { osxsave, ..self }
    }
}

/// That a table gives an XCR0 and XSS, kept from when either changed ([`Table::state`]) for every CPUID exit until one changes again
/// ([`Table::guest_row_kept`]). Only [`Table::state`] makes one.
#[derive(Clone, Copy, Debug, PartialEq, Eq, Hash)]
pub struct State {
    size: u32,
}

impl State {
    /// The size of the compacted save area, which the guest reads in D.1.EBX.
    #[must_use]
    pub const fn size(self) -> u32 {
        self.size
    }
}

impl Table {
    /// The table as the guest of a processor sees it; where its rows came from stays. [`Refusal::StateBeyondTable`] and then
    /// [`Refusal::CompactSizeTooLarge`].
    ///
    /// # Errors
    ///
    /// [`Refusal::StateBeyondTable`], then [`Refusal::CompactSizeTooLarge`].
    ///
    /// ```
    /// use snp_cpuid::{Options, Processor, Table, guest};
    ///
    /// let pages = std::fs::read("epyc-milan.pages").unwrap();
    /// let processor = Processor::new(5).xcr0(7).xss(0x800).osxsave(true);
    /// let image = Table::build(&pages, Options::new()).unwrap().image();
    /// // also of a table that was read
    /// let seen = Table::try_from(&image[..]).unwrap().guest(processor).unwrap();
    /// assert_eq!(seen, guest(&pages, Options::new(), processor).unwrap());
    /// ```
    pub fn guest(&self, processor: Processor) -> Result<Table, Refusal> {
        let mut table = self.clone();
        table.become_guest(processor)?;
        Ok(table)
    }

    /// The same in place; a refusal leaves a table without rows.
    fn become_guest(&mut self, processor: Processor) -> Result<(), Refusal> {
        let Processor { x2apic, xcr0, xss, osxsave } = processor;
        let (registers, origins) = self.arrays_mut();
        // SAFETY: the two arrays are the table's own
        unsafe { exports::snp_cpuid_table_guest(registers, origins, x2apic, xcr0, xss, osxsave) }.accepted().map(|_| ())
    }

    /// The one row that the guest of a processor reads at a CPUID exit, found as [`Table::lookup`] finds it; none where there is no such row.
    /// [`Refusal::StateBeyondTable`] and [`Refusal::CompactSizeTooLarge`] come first, whatever the leaf.
    ///
    /// # Errors
    ///
    /// [`Refusal::StateBeyondTable`], then [`Refusal::CompactSizeTooLarge`], whatever the leaf.
    ///
    /// ```
    /// use snp_cpuid::{Options, Processor, Refusal, Table};
    ///
    /// let pages = std::fs::read("epyc-milan.pages").unwrap();
    /// let table = Table::build(&pages, Options::new()).unwrap();
    /// let processor = Processor::new(5).xcr0(7).xss(0x800).osxsave(true);
    /// assert_eq!(table.guest_row(processor, 0xB, Some(1), false).unwrap().unwrap().result.edx, 5);
    /// assert_eq!(table.guest_row(processor, 0x4000_0000, Some(0), false), Ok(None));
    /// let beyond = processor.xcr0(0xE7);
    /// assert_eq!(table.guest_row(beyond, 0xB, Some(1), false), Err(Refusal::StateBeyondTable));
    /// ```
    #[inline]
    pub fn guest_row(&self, processor: Processor, leaf: u32, subleaf: Option<u32>, enforce_subleaf: bool) -> Result<Option<Found>, Refusal> {
        let Processor { x2apic, xcr0, xss, osxsave } = processor;
        let (registers, origins) = self.arrays();
        let (named, subleaf) = (subleaf.is_some(), subleaf.unwrap_or(0));
        // SAFETY: the two arrays are the table's own, and the function only reads them
        let found =
            unsafe { exports::snp_cpuid_table_guest_find(registers, origins, x2apic, xcr0, xss, osxsave, leaf, named, subleaf, enforce_subleaf) };
        match found.number {
            0 => Ok(found.row()),
            number => Err(Refusal::of(number, Details::default())),
        }
    }

    /// Whether the table allows a processor this XCR0 and XSS. The answer stays true until either changes, or the table does.
    ///
    /// # Errors
    ///
    /// [`Refusal::StateBeyondTable`], then [`Refusal::CompactSizeTooLarge`].
    ///
    /// ```
    /// use snp_cpuid::{Options, Processor, Refusal, Table};
    ///
    /// let pages = std::fs::read("epyc-milan.pages").unwrap();
    /// let table = Table::build(&pages, Options::new()).unwrap();
    /// // at XSETBV, or a write to XSS
    /// let processor = Processor::new(5).xcr0(7).xss(0x800).osxsave(true);
    /// let state = table.state(processor.xcr0, processor.xss).unwrap();
    /// // at each CPUID exit
    /// let found = table.guest_row_kept(processor, state, 0xD, Some(1), false);
    /// assert_eq!(Ok(found), table.guest_row(processor, 0xD, Some(1), false));
    ///
    /// assert_eq!(table.state(0xE7, 0), Err(Refusal::StateBeyondTable));
    /// ```
    pub fn state(&self, xcr0: u64, xss: u64) -> Result<State, Refusal> {
        let (registers, origins) = self.arrays();
        // SAFETY: the two arrays are the table's own, and the function only reads them
        let state = unsafe { exports::snp_cpuid_table_state(registers, origins, xcr0, xss) };
        match state.number {
            0 => Ok(State { size: state.size }),
            number => Err(Refusal::of(number, Details::default())),
        }
    }

    /// What [`Table::guest_row`] finds, with the state that [`Table::state`] gave for the same XCR0 and XSS. Another state changes D.1.EBX and
    /// nothing else.
    #[must_use]
    #[inline]
    pub fn guest_row_kept(&self, processor: Processor, state: State, leaf: u32, subleaf: Option<u32>, enforce_subleaf: bool) -> Option<Found> {
        let Processor { x2apic, xcr0, xss, osxsave } = processor;
        let (registers, origins) = self.arrays();
        let (size, named, subleaf) = (state.size, subleaf.is_some(), subleaf.unwrap_or(0));
        // SAFETY: the two arrays are the table's own, and the function only reads them
        unsafe {
            exports::snp_cpuid_table_guest_find_kept(registers, origins, x2apic, xcr0, xss, osxsave, size, leaf, named, subleaf, enforce_subleaf)
        }
        .row()
    }
}

/// The table of CPUID pages as the guest of one processor sees it. Its rows came from where the paravisor's did.
///
/// # Errors
///
/// The refusal of building, then [`Refusal::StateBeyondTable`] and [`Refusal::CompactSizeTooLarge`].
///
/// ```
/// use snp_cpuid::{Options, Processor, Refusal, guest};
///
/// let pages = std::fs::read("epyc-milan.pages").unwrap();
/// let processor = Processor::new(5).xcr0(7).xss(0x800).osxsave(true);
/// let seen = guest(&pages, Options::new(), processor).unwrap();
/// // the two sizes that this processor itself reported
/// assert_eq!(seen.row(0xD, Some(0)).unwrap().ebx, 0x340);
/// assert_eq!(seen.row(0xD, Some(1)).unwrap().ebx, 0x350);
/// assert_eq!(seen.row(0xB, Some(1)).unwrap().edx, 5);
///
/// // AVX-512 state, which it does not have
/// let beyond = processor.xcr0(0xE7);
/// assert_eq!(guest(&pages, Options::new(), beyond), Err(Refusal::StateBeyondTable));
/// ```
pub fn guest(pages: &[u8], options: Options, processor: Processor) -> Result<Table, Refusal> {
    let mut table = Table::build(pages, options)?;
    table.become_guest(processor)?;
    Ok(table)
}

/// Writes the image of the guest's table to the front of `out` and gives its length. Where it refuses, `out` is as it was; bytes beyond the image are
/// as they were.
///
/// # Errors
///
/// As [`guest`], then [`Refusal::BufferTooShort`].
pub fn write_guest_image(pages: &[u8], options: Options, processor: Processor, out: &mut [u8]) -> Result<usize, Refusal> {
    let Options { secure_avic, edition } = options;
    let Processor { x2apic, xcr0, xss, osxsave } = processor;
    let (pages, length, room, out) = (pages.as_ptr(), pages.len(), out.len(), out.as_mut_ptr());
    // SAFETY: both pointers and lengths are those of slices; the function reads the first and writes within the second
    let written = unsafe { exports::snp_cpuid_write_guest_image(pages, length, secure_avic, edition, x2apic, xcr0, xss, osxsave, out, room) };
    written.accepted().map(|written| written.length as usize)
}

/// Builds and looks one row of the guest's table up, both in the library. [`Table::guest_row`] gives the same and builds once.
///
/// ```
/// use snp_cpuid::{Options, Processor, guest_lookup};
///
/// let pages = std::fs::read("epyc-milan.pages").unwrap();
/// let processor = Processor::new(5);
/// // with x87 state alone the save area is its smallest, 512 bytes and the header's 64
/// assert_eq!(guest_lookup(&pages, Options::new(), processor, 0xD, Some(0), true).unwrap().result.ebx, 576);
/// ```
#[must_use]
pub fn guest_lookup(pages: &[u8], options: Options, processor: Processor, leaf: u32, subleaf: Option<u32>, enforce_subleaf: bool) -> Option<Found> {
    let Options { secure_avic, edition } = options;
    let Processor { x2apic, xcr0, xss, osxsave } = processor;
    let (named, subleaf) = (subleaf.is_some(), subleaf.unwrap_or(0));
    // SAFETY: the pointer and length are those of a slice, which the function only reads
    let found = unsafe {
        let (pages, length) = (pages.as_ptr(), pages.len());
        exports::snp_cpuid_guest_lookup(pages, length, secure_avic, edition, x2apic, xcr0, xss, osxsave, leaf, named, subleaf, enforce_subleaf)
    };
    found.row()
}
