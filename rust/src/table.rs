//! A table.

use crate::answer::Answer;
use crate::exports::{self, Counts};
use crate::{Found, Options, Origin, PLACES, Refusal, TableComparison, places};
use core::fmt;
use core::hash::{Hash, Hasher};
use core::iter::FusedIterator;
use core::mem::MaybeUninit;

/// The four registers of a CPUID result.
///
/// ```
/// use core::arch::x86_64;
/// use snp_cpuid::CpuidResult;
///
/// let own = CpuidResult::from(x86_64::__cpuid(0));
/// assert_eq!(x86_64::CpuidResult::from(own), x86_64::__cpuid(0));
/// ```
#[derive(Clone, Copy, Debug, Default, PartialEq, Eq, Hash)]
pub struct CpuidResult {
    /// EAX
    pub eax: u32,
    /// EBX
    pub ebx: u32,
    /// ECX
    pub ecx: u32,
    /// EDX
    pub edx: u32,
}

impl CpuidResult {
    /// The four in the order of [`Register::index`](crate::Register::index).
    #[must_use]
    pub const fn registers(self) -> [u32; 4] {
        [self.eax, self.ebx, self.ecx, self.edx]
    }
}

/// What the instruction gives (`core::arch::x86_64::__cpuid_count`).
impl From<core::arch::x86_64::CpuidResult> for CpuidResult {
    fn from(given: core::arch::x86_64::CpuidResult) -> CpuidResult {
        let core::arch::x86_64::CpuidResult { eax, ebx, ecx, edx } = given;
        CpuidResult { eax, ebx, ecx, edx }
    }
}

impl From<CpuidResult> for core::arch::x86_64::CpuidResult {
    fn from(CpuidResult { eax, ebx, ecx, edx }: CpuidResult) -> core::arch::x86_64::CpuidResult {
        core::arch::x86_64::CpuidResult { eax, ebx, ecx, edx }
    }
}

/// One row: a leaf, its subleaf where the leaf has them, its registers in the table, and where it came from.
#[derive(Clone, Copy, Debug, PartialEq, Eq, Hash)]
pub struct Row {
    /// the leaf
    pub leaf: u32,
    /// the subleaf; none for a leaf without
    pub subleaf: Option<u32>,
    /// the four registers
    pub result: CpuidResult,
    /// where it came from
    pub origin: Origin,
}

/// A table, to keep for as long as its guest runs: 2,112 bytes without a pointer inside, in the library's own layout, so every question is one call.
///
/// [`Table::build`] and [`Table::pool`] make one of CPUID pages, [`Table::try_from`] reads one from its image. [`Table::lookup`] answers for
/// the paravisor, [`Table::guest_row`] for the guest of a processor.
///
/// Two tables are equal where rows, registers and combined mask are; where the rows came from does not count. Two [`Row`]s are equal where that is
/// the same too.
///
/// ```
/// use snp_cpuid::{Options, Processor, Table};
///
/// let pages = std::fs::read("epyc-milan.pages").unwrap();
/// let table = Table::build(&pages, Options::new()).unwrap();
/// assert_eq!(table.row_count(), 29);
///
/// // a CPUID exit of a guest: leaf Dh, subleaf 0
/// let processor = Processor::new(5).xcr0(7).xss(0x800).osxsave(true);
/// let found = table.guest_row(processor, 0xD, Some(0), false).unwrap().unwrap();
/// assert_eq!(found.result.ebx, 0x340);
/// ```
#[derive(Clone)]
pub struct Table {
    memory: exports::Table,
}

impl Table {
    /// A table without rows, for [`Table::rebuild`], which leaves one where it refuses. Nothing is found in it, no processor's state is allowed in it
    /// (13), its image has no bytes and its list for KVM 8, and it compares as at least itself.
    ///
    /// ```
    /// use snp_cpuid::{Table, TableComparison};
    ///
    /// let none = Table::new();
    /// assert_eq!((none.rows().count(), none.row(0, None)), (0, None));
    /// assert_eq!((none.write_image(&mut []), none.write_kvm(&mut [7; 8])), (Ok(0), Ok(8)));
    /// assert_eq!(none.compare(&none), TableComparison::Rises);
    /// ```
    pub const fn new() -> Table {
        Table { memory: exports::Table { registers: [0; 4 * PLACES], origins: [0; PLACES] } }
    }

    /// Builds the table of CPUID pages that stand end to end: one call of the library. [`build`](crate::build) is the same.
    ///
    /// # Errors
    ///
    /// The refusal of the pages, or of the edition.
    // inline, so that a caller who takes the table out of the answer copies it once and not twice
    #[inline]
    pub fn build(pages: &[u8], options: Options) -> Result<Table, Refusal> {
        exports::same_interface();
        let Options { secure_avic, edition } = options;
        let mut made = Made::new();
        let (registers, origins) = made.arrays();
        // SAFETY: the first pointer and length are those of a slice, which the function only reads; it writes the whole of the two arrays
        unsafe {
            exports::snp_cpuid_table_build(pages.as_ptr(), pages.len(), secure_avic, edition, registers, origins).accepted()?;
            Ok(made.table())
        }
    }

    /// Builds in this table's place, without a copy on the stack. A refusal leaves a table without rows.
    ///
    /// # Errors
    ///
    /// As [`Table::build`].
    ///
    /// ```
    /// use snp_cpuid::{Options, Refusal, Table};
    ///
    /// let pages = std::fs::read("epyc-milan.pages").unwrap();
    /// let mut table = Box::new(Table::new());
    /// table.rebuild(&pages, Options::new()).unwrap();
    /// assert_eq!(*table, Table::build(&pages, Options::new()).unwrap());
    /// assert_eq!(table.rebuild(&[], Options::new()), Err(Refusal::PagesLength));
    /// assert_eq!(*table, Table::new());
    /// ```
    #[inline]
    pub fn rebuild(&mut self, pages: &[u8], options: Options) -> Result<(), Refusal> {
        exports::same_interface();
        let Options { secure_avic, edition } = options;
        let (registers, origins) = self.arrays_mut();
        // SAFETY: the first pointer and length are those of a slice, which the function only reads; the two arrays are the table's own
        unsafe { exports::snp_cpuid_table_build(pages.as_ptr(), pages.len(), secure_avic, edition, registers, origins) }.accepted().map(|_| ())
    }

    /// The memory, as the library has it.
    #[must_use]
    pub fn memory(&self) -> &exports::Table {
        &self.memory
    }

    /// The two arrays, for the library to read.
    pub(crate) fn arrays(&self) -> (*const u32, *const u64) {
        (self.memory.registers.as_ptr(), self.memory.origins.as_ptr())
    }

    /// The two arrays, for the library to write.
    pub(crate) fn arrays_mut(&mut self) -> (*mut u32, *mut u64) {
        (self.memory.registers.as_mut_ptr(), self.memory.origins.as_mut_ptr())
    }

    /// The rows, leaves rising and subleaves rising within a leaf.
    #[must_use]
    pub fn rows(&self) -> Rows<'_> {
        Rows { table: self, next: 0, left: self.memory.origins.iter().filter(|origin| **origin != 0).count() }
    }

    /// The row at a place, if it has one.
    fn at(&self, place: usize) -> Option<Row> {
        let origin = Origin::of_number(self.memory.origins[place])?;
        let (leaf, subleaf) = places::at(place);
        let [eax, ebx, ecx, edx] = [0, 1, 2, 3].map(|register| self.memory.registers[4 * place + register]);
        Some(Row { leaf, subleaf, result: CpuidResult { eax, ebx, ecx, edx }, origin })
    }

    fn counts(&self) -> Counts {
        let (registers, origins) = self.arrays();
        // SAFETY: the two arrays are the table's own, and the function only reads them
        unsafe { exports::snp_cpuid_table_counts(registers, origins) }
    }

    /// How many rows it has: 26 to 32 where it was built.
    #[must_use]
    pub fn row_count(&self) -> usize {
        self.counts().row_count as usize
    }

    /// The combined mask, XFEM or XSS: one bit for each extended state that a guest may use.
    #[must_use]
    pub fn max_extended_state(&self) -> u64 {
        self.counts().max_extended_state
    }

    /// The row of a leaf and subleaf exactly as the table has it: none finds a leaf without subleaves.
    #[must_use]
    pub fn find(&self, leaf: u32, subleaf: Option<u32>) -> Option<Row> {
        self.lookup(leaf, subleaf, true).map(|Found { result, origin }| Row { leaf, subleaf, result, origin })
    }

    /// The registers of that row.
    #[must_use]
    pub fn row(&self, leaf: u32, subleaf: Option<u32>) -> Option<CpuidResult> {
        self.find(leaf, subleaf).map(|row| row.result)
    }

    /// What OpenHCL's `leaf_result_ref` finds. A leaf with subleaves is found only under a subleaf that the table has; one without is found where no
    /// subleaf is given or `enforce_subleaf` is false.
    #[must_use]
    #[inline]
    pub fn lookup(&self, leaf: u32, subleaf: Option<u32>, enforce_subleaf: bool) -> Option<Found> {
        let (registers, origins) = self.arrays();
        let (named, subleaf) = (subleaf.is_some(), subleaf.unwrap_or(0));
        // SAFETY: the two arrays are the table's own, and the function only reads them
        unsafe { exports::snp_cpuid_table_find(registers, origins, leaf, named, subleaf, enforce_subleaf) }.row()
    }

    /// Whether another table is at least this one, or the first thing in the way: the question before a guest that runs on this table moves to a
    /// server that gives it the other.
    ///
    /// ```
    /// use snp_cpuid::{Options, Register, Table, TableComparison};
    ///
    /// let mut pages = std::fs::read("epyc-milan.pages").unwrap();
    /// let running = Table::build(&pages, Options::new()).unwrap();
    /// assert_eq!(running.compare(&running), TableComparison::Rises);
    ///
    /// // a server without FMA, bit 12 of 1.ECX; leaf 1 is the second entry of page 0
    /// pages[64 + 32 + 1] &= !0x10;
    /// let other = Table::build(&pages, Options::new()).unwrap();
    /// let answer = running.compare(&other);
    /// assert_eq!(answer, TableComparison::Differs { leaf: 1, subleaf: None, register: Register::Ecx });
    /// assert_eq!(answer.to_string(), "1h.ECX lacks a feature bit, is a smaller save area, or differs where it must be equal");
    /// assert_eq!(other.compare(&running), TableComparison::Rises);
    /// ```
    pub fn compare(&self, other: &Table) -> TableComparison {
        let ((a_registers, a_origins), (b_registers, b_origins)) = (self.arrays(), other.arrays());
        // SAFETY: the arrays are those of the two tables, and the function only reads them
        TableComparison::from_numbers(unsafe { exports::snp_cpuid_table_compare(a_registers, a_origins, b_registers, b_origins) })
    }
}

/// Memory in which the library makes a table. It asks nothing of what was there, so nobody has to write it first.
pub(crate) struct Made(MaybeUninit<exports::Table>);

impl Made {
    pub(crate) fn new() -> Made {
        Made(MaybeUninit::uninit())
    }

    /// The two arrays, for the library to write.
    pub(crate) fn arrays(&mut self) -> (*mut u32, *mut u64) {
        let memory = self.0.as_mut_ptr();
        // SAFETY: the fields' addresses are within the memory, and nothing is read
        unsafe { ((&raw mut (*memory).registers).cast(), (&raw mut (*memory).origins).cast()) }
    }

    /// The table.
    ///
    /// # Safety
    ///
    /// The library has written the two arrays.
    pub(crate) unsafe fn table(self) -> Table {
        // SAFETY: both arrays were written, and there is nothing else
        Table { memory: unsafe { self.0.assume_init() } }
    }
}

impl Default for Table {
    fn default() -> Table {
        Table::new()
    }
}

/// Memory of any content is a table; what its places hold is what each function finds there.
impl From<exports::Table> for Table {
    fn from(memory: exports::Table) -> Table {
        Table { memory }
    }
}

impl PartialEq for Table {
    fn eq(&self, other: &Table) -> bool {
        let same = |(a, b): (Row, Row)| (a.leaf, a.subleaf, a.result) == (b.leaf, b.subleaf, b.result);
        self.counts() == other.counts() && self.rows().zip(other.rows()).all(same)
    }
}

impl Eq for Table {}

impl Hash for Table {
    fn hash<H: Hasher>(&self, state: &mut H) {
        self.counts().row_count.hash(state);
        self.max_extended_state().hash(state);
        self.rows().for_each(|row| (row.leaf, row.subleaf, row.result).hash(state));
    }
}

impl fmt::Debug for Table {
    fn fmt(&self, f: &mut fmt::Formatter<'_>) -> fmt::Result {
        f.debug_list().entries(self.rows()).finish()
    }
}

/// The rows of a table, in order.
#[derive(Clone, Debug)]
pub struct Rows<'a> {
    table: &'a Table,
    next: usize,
    left: usize,
}

impl Iterator for Rows<'_> {
    type Item = Row;

    fn next(&mut self) -> Option<Row> {
        while self.next < PLACES {
            let row = self.table.at(self.next);
            self.next += 1;
            if row.is_some() {
                self.left -= 1;
                return row;
            }
        }
        None
    }

    fn size_hint(&self) -> (usize, Option<usize>) {
        (self.left, Some(self.left))
    }
}

impl ExactSizeIterator for Rows<'_> {}

impl FusedIterator for Rows<'_> {}

impl<'a> IntoIterator for &'a Table {
    type Item = Row;
    type IntoIter = Rows<'a>;

    fn into_iter(self) -> Rows<'a> {
        self.rows()
    }
}
