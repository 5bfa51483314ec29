//! The refusals, made of include/refusals.txt by `tests/gate/interface.py --write`.

use crate::refusal::{Line, Refusal, TopologyError, When};

#[rustfmt::skip]
pub(crate) const LIST: &[Line] = &[
    Line {
        number: 1,
        name: |_| Refusal::PagesLength,
        says: &[(When::Always, "the CPUID pages must be one or more whole pages of 4,096 bytes")],
    },
    Line {
        number: 2,
        name: |_| Refusal::PageCount,
        says: &[(When::Always, "a CPUID page counts more than 64 entries: the page is damaged or no CPUID page")],
    },
    Line {
        number: 3,
        name: |d| Refusal::MissingRequiredResult(d.leaf, d.subleaf),
        says: &[
            (When::NoSubleaf, "no entry for leaf %lh, which every guest needs"),
            (When::Leaf(0xD), "no entry for leaf Dh subleaf %ch on page 1, where the entries of Dh must stand"),
            (When::Always, "no entry for leaf %lh subleaf %ch, which every guest needs"),
        ],
    },
    Line {
        number: 4,
        name: |_| Refusal::InvlpgbUnavailable,
        says: &[(When::Always, "INVLPGB (80000008h.EBX bit 3) is required but unavailable")],
    },
    Line {
        number: 5,
        name: |_| Refusal::SaveAreaOverflow,
        says: &[(When::Always, "the size of an extended state (Dh: EAX + EBX of a subleaf) does not fit 32 bits")],
    },
    Line {
        number: 6,
        name: |d| Refusal::TopologyInconsistent(TopologyError::Hyperthreading(d.s)),
        says: &[(When::Always, "the topology leaves disagree: the processor count does not go with the hyperthreading flag, 1.EDX bit 28 (APIC core id size %s)")],
    },
    Line {
        number: 7,
        name: |d| Refusal::TopologyInconsistent(TopologyError::ProcessorCount(d.s)),
        says: &[
            (When::Is(0), "the topology leaves disagree: 1.EBX bits 16-23 must be 80000008h.ECX bits 0-7 plus 1 (APIC core id size 0)"),
            (When::Below(8), "the topology leaves disagree: 1.EBX bits 16-23 must be 2^%s = %p, and 80000008h.ECX bits 0-7 plus 1 no more (APIC core id size %s)"),
            (When::Always, "the topology leaves disagree: the processor counts of 1.EBX and 80000008h.ECX disagree (APIC core id size %s)"),
        ],
    },
    Line {
        number: 8,
        name: |_| Refusal::TopologyInconsistent(TopologyError::ThreadsPerUnit),
        says: &[(When::Always, "the topology leaves disagree: 8000001Eh.EBX gives more threads per unit than there can be")],
    },
    Line {
        number: 9,
        name: |_| Refusal::BufferTooShort,
        says: &[(When::Always, "the buffer is too short: 732 bytes suffice for a built table's image, 1288 for its list for KVM, 8192 for a list's pages")],
    },
    Line {
        number: 10,
        name: |_| Refusal::ListLength,
        says: &[(When::Always, "the list for KVM must have 8 bytes and 40 for each row that it counts")],
    },
    Line {
        number: 11,
        name: |_| Refusal::ListRows,
        says: &[(When::Always, "the list for KVM has more rows of leaf Dh, or of all others, than the 64 of a page")],
    },
    Line {
        number: 12,
        name: |_| Refusal::ListFields,
        says: &[(When::Always, "the list for KVM has a flag other than 0 or 1, or a word that must be zero is not")],
    },
    Line {
        number: 13,
        name: |_| Refusal::StateBeyondTable,
        says: &[(When::Always, "XCR0 lacks bit 0 (x87) or has a bit that D.0.EAX lacks, or XSS has a bit that D.1.ECX lacks")],
    },
    Line {
        number: 14,
        name: |_| Refusal::CompactSizeTooLarge,
        says: &[(When::Always, "the size of the compacted save area of XCR0 and XSS (D.1.EBX) does not fit 32 bits")],
    },
    Line {
        number: 15,
        name: |_| Refusal::UnknownEdition,
        says: &[(When::Always, "the AVX rule has no such edition: it has editions 1 and 2")],
    },
    Line {
        number: 16,
        name: |_| Refusal::EditionBack,
        says: &[(When::Always, "a table does not go from edition 2 of the AVX rule back to edition 1")],
    },
    Line {
        number: 17,
        name: |d| Refusal::ReservedBytes { leaf: d.leaf },
        says: &[(When::Always, "an entry for leaf %lh has a reserved byte, one of its last eight, that is not zero")],
    },
    Line {
        number: 18,
        name: |_| Refusal::PoolSets,
        says: &[(When::Always, "a pool has 2 to 16 page sets, and their lengths sum to the bytes handed over")],
    },
    Line {
        number: 19,
        name: |_| Refusal::PoolDiffers,
        says: &[(When::Always, "the servers of the pool differ, in a row that all their tables have, elsewhere than in feature bits or the size of the save area")],
    },
    Line {
        number: 20,
        name: |_| Refusal::NothingDecides,
        says: &[(When::Always, "no single result bit changes the answer when it is flipped")],
    },
];
