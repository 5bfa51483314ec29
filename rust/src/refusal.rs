//! The refusals, by the names that OpenHCL's `cvm_cpuid` gives the ones that it has.

use crate::refusal_list::LIST;
use core::error::Error;
use core::fmt::{self, Formatter};

/// Why a page set or a pool of them gave no table, a buffer nothing, a list no pages, or a table was not carried to another edition.
#[derive(Clone, Copy, Debug, PartialEq, Eq, Hash)]
#[non_exhaustive]
pub enum Refusal {
    /// 1: the length is 0 or no multiple of 4,096.
    PagesLength,
    /// 2: some page's count is above 64.
    PageCount,
    /// 3: a required leaf, or subleaf of it, has no counted entry.
    MissingRequiredResult(u32, Option<u32>),
    /// 4: bit 3 of 80000008h.EBX, INVLPGB, is clear.
    InvlpgbUnavailable,
    /// 5: the size of the save area overflows 32 bits.
    SaveAreaOverflow,
    /// 6, 7 or 8: the topology leaves disagree.
    TopologyInconsistent(TopologyError),
    /// 9: the buffer is shorter than what would be written.
    BufferTooShort,
    /// 10: a list's length is under 8, or not 8 + 40 × its count.
    ListLength,
    /// 11: a list has more than 64 rows for one page.
    ListRows,
    /// 12: a flag of a list is not 0 or 1, or a word that is to be zero is not.
    ListFields,
    /// 13: XCR0 lacks bit 0, or XCR0 or XSS has a bit that the table does not.
    StateBeyondTable,
    /// 14: the size of the compacted save area of XCR0 and XSS does not fit 32 bits.
    CompactSizeTooLarge,
    /// 15: the AVX rule has no such edition.
    UnknownEdition,
    /// 16: a table was to go from an edition of the AVX rule back to an earlier one.
    EditionBack,
    /// 17: a reserved byte of an entry below its page's count is not zero. It comes after 2 and before 3.
    ReservedBytes {
        /// the leaf of the first such entry, EAX_IN, whether or not a table keeps it
        leaf: u32,
    },
    /// 18: a pool has fewer than 2 or more than [`MOST_SERVERS`](crate::MOST_SERVERS) page sets, or their lengths do not sum to the bytes handed
    /// over.
    PoolSets,
    /// 19: the servers of a pool differ, in a row that all their tables have, elsewhere than in feature bits or the save area's size.
    PoolDiffers,
    /// 20: no single result bit of the pages changes the answer when it is flipped.
    NothingDecides,
}

/// How the topology leaves disagree, in words without the refusal's own. The number is s, bits 12 to 15 of 80000008h.ECX: the size of the APIC core
/// id.
#[derive(Clone, Copy, Debug, PartialEq, Eq, Hash)]
#[non_exhaustive]
pub enum TopologyError {
    /// 6: the processor count against the hyperthreading flag, bit 28 of 1.EDX.
    Hyperthreading(u8),
    /// 7: the processor counts of leaves 1 and 80000008h.
    ProcessorCount(u8),
    /// 8: the threads per unit of leaf 8000001Eh against the processor count.
    ThreadsPerUnit,
}

/// What a refusal names beside its number; what it does not name is 0 or none.
#[derive(Clone, Copy, Debug, Default, PartialEq, Eq, Hash)]
pub struct Details {
    /// the leaf
    pub leaf: u32,
    /// the subleaf; none for a leaf without
    pub subleaf: Option<u32>,
    /// bits 12 to 15 of 80000008h.ECX
    pub s: u8,
}

/// One refusal of the list: its number, its name with what it names, and its messages, of which the first that fits is said.
pub(crate) struct Line {
    pub(crate) number: u32,
    pub(crate) name: fn(Details) -> Refusal,
    pub(crate) says: &'static [(When, &'static str)],
}

/// Where a message fits.
pub(crate) enum When {
    Always,
    NoSubleaf,
    Leaf(u32),
    Is(u8),
    Below(u8),
}

impl When {
    fn holds(&self, d: Details) -> bool {
        match *self {
            When::Always => true,
            When::NoSubleaf => d.subleaf.is_none(),
            When::Leaf(leaf) => d.leaf == leaf,
            When::Is(s) => d.s == s,
            When::Below(s) => d.s < s,
        }
    }
}

/// What the messages of an inconsistent topology begin with, before the cause.
const TOPOLOGY: &str = "the topology leaves disagree: ";

/// Writes a message: `%l` stands for the leaf and `%c` for the subleaf, both in hexadecimal, `%s` for s and `%p` for 2 to the power of s.
fn write_message(mut text: &str, d: Details, f: &mut Formatter<'_>) -> fmt::Result {
    while let Some((before, after)) = text.split_once('%') {
        f.write_str(before)?;
        match after.as_bytes()[0] {
            b'l' => write!(f, "{:X}", d.leaf)?,
            b'c' => write!(f, "{:X}", d.subleaf.unwrap_or(0))?,
            b's' => write!(f, "{}", d.s)?,
            _ => write!(f, "{}", 1u32 << d.s)?,
        }
        text = &after[1..];
    }
    f.write_str(text)
}

impl Refusal {
    /// Its number.
    ///
    /// ```
    /// use snp_cpuid::{Refusal, TopologyError};
    ///
    /// let refusal = Refusal::TopologyInconsistent(TopologyError::ThreadsPerUnit);
    /// assert_eq!(refusal.number(), 8);
    /// assert_eq!(refusal.to_string(), "the topology leaves disagree: 8000001Eh.EBX gives more threads per unit than there can be");
    /// ```
    #[must_use]
    pub fn number(&self) -> u32 {
        self.row().number
    }

    /// What it names beside its number.
    #[must_use]
    pub fn details(&self) -> Details {
        match *self {
            Refusal::MissingRequiredResult(leaf, subleaf) => Details { leaf, subleaf, ..Details::default() },
            Refusal::ReservedBytes { leaf } => Details { leaf, ..Details::default() },
            Refusal::TopologyInconsistent(TopologyError::Hyperthreading(s) | TopologyError::ProcessorCount(s)) => Details { s, ..Details::default() },
            Refusal::PagesLength
            | Refusal::PageCount
            | Refusal::InvlpgbUnavailable
            | Refusal::SaveAreaOverflow
            | Refusal::TopologyInconsistent(TopologyError::ThreadsPerUnit)
            | Refusal::BufferTooShort
            | Refusal::ListLength
            | Refusal::ListRows
            | Refusal::ListFields
            | Refusal::StateBeyondTable
            | Refusal::CompactSizeTooLarge
            | Refusal::UnknownEdition
            | Refusal::EditionBack
            | Refusal::PoolSets
            | Refusal::PoolDiffers
            | Refusal::NothingDecides => Details::default(),
        }
    }

    /// The refusal of a number, with those of the details that it names.
    pub(crate) fn of(number: u32, details: Details) -> Refusal {
        // the library is proved to give no other number
        Refusal::named(number, details).unwrap_or_else(|| unreachable!("answer {number}"))
    }

    /// The refusal of a number, if the list has it.
    pub(crate) fn named(number: u32, details: Details) -> Option<Refusal> {
        LIST.iter().find(|line| line.number == number).map(|line| (line.name)(details))
    }

    /// Its row of the list: the one whose name with its details it is.
    fn row(&self) -> &'static Line {
        LIST.iter().find(|line| (line.name)(self.details()) == *self).expect("every refusal stands in the list")
    }

    /// Its message, with the marks that stand for its details.
    fn text(&self) -> &'static str {
        let (_, text) = self.row().says.iter().find(|(when, _)| when.holds(self.details())).expect("the last message always fits");
        text
    }
}

/// The whole message, with the cause of an inconsistent topology; so the cause is no `source`.
impl fmt::Display for Refusal {
    fn fmt(&self, f: &mut Formatter<'_>) -> fmt::Result {
        write_message(self.text(), self.details(), f)
    }
}

impl fmt::Display for TopologyError {
    fn fmt(&self, f: &mut Formatter<'_>) -> fmt::Result {
        let whole = Refusal::TopologyInconsistent(*self);
        let text = whole.text();
        write_message(text.strip_prefix(TOPOLOGY).unwrap_or(text), whole.details(), f)
    }
}

impl Error for Refusal {}

impl Error for TopologyError {}

#[cfg(test)]
mod tests {
    use super::*;

    /// The variants with their numbers and what each names.
    #[test]
    fn numbers_and_details_lead_to_the_name_and_back() {
        let (none, s) = (Details::default(), Details { s: 7, ..Details::default() });
        let leaf = Details { leaf: 0x8000_001D, subleaf: Some(3), ..none };
        for (number, named, refusal) in [
            (1, none, Refusal::PagesLength),
            (2, none, Refusal::PageCount),
            (3, leaf, Refusal::MissingRequiredResult(0x8000_001D, Some(3))),
            (3, Details { leaf: 5, ..none }, Refusal::MissingRequiredResult(5, None)),
            (4, none, Refusal::InvlpgbUnavailable),
            (5, none, Refusal::SaveAreaOverflow),
            (6, s, Refusal::TopologyInconsistent(TopologyError::Hyperthreading(7))),
            (7, s, Refusal::TopologyInconsistent(TopologyError::ProcessorCount(7))),
            (8, none, Refusal::TopologyInconsistent(TopologyError::ThreadsPerUnit)),
            (9, none, Refusal::BufferTooShort),
            (10, none, Refusal::ListLength),
            (11, none, Refusal::ListRows),
            (12, none, Refusal::ListFields),
            (13, none, Refusal::StateBeyondTable),
            (14, none, Refusal::CompactSizeTooLarge),
            (15, none, Refusal::UnknownEdition),
            (16, none, Refusal::EditionBack),
            (17, Details { leaf: 0x4000_0000, ..none }, Refusal::ReservedBytes { leaf: 0x4000_0000 }),
            (18, none, Refusal::PoolSets),
            (19, none, Refusal::PoolDiffers),
            (20, none, Refusal::NothingDecides),
        ] {
            assert_eq!((refusal.number(), refusal.details()), (number, named));
            assert_eq!(Refusal::of(number, named), refusal);
        }
    }

    #[test]
    fn a_cause_is_printed_once() {
        let cause = TopologyError::ProcessorCount(3);
        let refusal = Refusal::TopologyInconsistent(cause);
        assert_eq!(refusal.to_string(), format!("{TOPOLOGY}{cause}"));
        assert!(refusal.source().is_none() && !cause.to_string().contains("disagree"));
    }

    #[test]
    fn the_buffers_that_suffice_are_the_constants() {
        let said = Refusal::BufferTooShort.to_string();
        for bytes in [crate::MOST_IMAGE_BYTES, crate::MOST_KVM_BYTES, crate::KVM_PAGES_BYTES] {
            assert!(said.contains(&format!(" {bytes} ")), "{said}");
        }
    }
}
