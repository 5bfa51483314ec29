//! The unchanged Rust of cvm_cpuid, asked for the table of a page set. Page bytes come in; a table or a refusal, numbered as in document
//! 01, goes out.

// highest_one, which snp.rs calls, is behind this in rustc 1.95.
#![feature(int_lowest_highest_one)]

mod panics;

use virt::CpuidLeafSet;

/// The three files, and the lines on which they panic. What only other callers use is unused here.
#[allow(unused)]
mod tree {
    include!(concat!(env!("OUT_DIR"), "/cvm_cpuid/tree.rs"));
}

/// A row of the table; registers in the order EAX, EBX, ECX, EDX.
#[derive(Clone, Copy, Debug, PartialEq, Eq, PartialOrd, Ord)]
pub struct Row {
    pub leaf: u32,
    pub subleaf: Option<u32>,
    pub registers: [u32; 4],
}

/// A refusal with its details; those that its number doesn't name are 0 or none.
#[derive(Clone, Copy, Debug, Default, PartialEq, Eq)]
pub struct Refusal {
    pub number: u32,
    pub leaf: u32,
    pub subleaf: Option<u32>,
    pub s: u32,
}

#[derive(Clone, Debug, PartialEq, Eq)]
pub enum Answer {
    /// The rows, rising, and the combined mask.
    Table {
        rows: Vec<Row>,
        mask: u64,
    },
    Refusal(Refusal),
    /// The Rust did something that document 01 has no answer for: always a difference.
    Unknown(String),
}

/// The lines that ask a module `cvm_cpuid` for the leaves of a page set, whichever module it is. The answer to a further error of it may be given.
#[macro_export]
macro_rules! asks {
    ($($module:ident)::+ $(, $error:ident($value:ident) => $refusal:expr)?) => {
        /// `CpuidResults::new` is private to its module; `build` calls it, then `to_leaves`.
        fn leaves(pages: &[u8], secure_avic: bool) -> Result<virt::CpuidLeafSet, $crate::Refusal> {
            use $($module)::+::CpuidResultsError;
            use $($module)::+::CpuidResultsIsolationType;
            use $($module)::+::TopologyError;
            let built = CpuidResultsIsolationType::Snp {
                cpuid_pages: pages,
                access_vsm: false,
                // any but 0 (document 01, first paragraph)
                vtom: 1 << 46,
                secure_avic,
            }
            .build();
            let numbered = |number| $crate::Refusal { number, ..$crate::Refusal::default() };
            let topology = |number, s: u8| $crate::Refusal { s: s.into(), ..numbered(number) };
            built.map_err(|error| match error {
                CpuidResultsError::MissingRequiredResult(leaf, subleaf) => $crate::Refusal { leaf: leaf.0, subleaf, ..numbered(3) },
                CpuidResultsError::InvlpgbUnavailable => numbered(4),
                CpuidResultsError::TopologyInconsistent(TopologyError::Hyperthreading(s)) => topology(6, s),
                CpuidResultsError::TopologyInconsistent(TopologyError::ProcessorCount(s)) => topology(7, s),
                CpuidResultsError::TopologyInconsistent(TopologyError::ThreadsPerUnit) => numbered(8),
                $(CpuidResultsError::$error($value) => $refusal,)?
            })
        }
    };
}

asks!(tree::cvm_cpuid);

/// What the Rust answers for these pages.
pub fn answer(pages: &[u8], secure_avic: bool) -> Answer {
    match panics::caught(|| leaves(pages, secure_avic)) {
        Ok(Ok(leaves)) => table(&leaves),
        Ok(Err(refusal)) => Answer::Refusal(refusal),
        Err(panics::Place::Processors) => processors_overflowed(pages, secure_avic),
        Err(panics::Place::Other(text)) => Answer::Unknown(text),
        Err(place) => Answer::Refusal(Refusal { number: place.number(), ..Refusal::default() }),
    }
}

/// Refusal 7, which `nc() + 1` ends in at 255. The panic doesn't tell s. The Rust does for the same pages with nc 254 and lps 0: the sum is
/// then 255, which no lps of 0 equals, and no check before it reads nc or lps.
fn processors_overflowed(pages: &[u8], secure_avic: bool) -> Answer {
    let mut other = pages.to_vec();
    for entry in other.chunks_exact_mut(4096).flat_map(|page| page[16..16 + 64 * 48].chunks_exact_mut(48)) {
        match u32::from_le_bytes([entry[0], entry[1], entry[2], entry[3]]) {
            // nc is the lowest byte of ECX, lps the third of EBX
            0x80000008 => entry[32] = 254,
            1 => entry[28 + 2] = 0,
            _ => {}
        }
    }
    match answer(&other, secure_avic) {
        Answer::Refusal(refusal) if refusal.number == 7 => Answer::Refusal(refusal),
        other => Answer::Unknown(format!("nc + 1 overflowed, but with nc 254 and lps 0: {other:?}")),
    }
}

/// The rows but the five of the hypervisor.
pub fn table(leaves: &CpuidLeafSet) -> Answer {
    let all = leaves.leaves();
    let mut rows: Vec<Row> = all
        .iter()
        .filter(|leaf| !(0x40000000..0x50000000).contains(&leaf.function))
        .map(|leaf| Row { leaf: leaf.function, subleaf: leaf.index, registers: leaf.result })
        .collect();
    if rows.len() + 5 != all.len() {
        return Answer::Unknown(format!("{} rows dropped instead of 5", all.len() - rows.len()));
    }
    rows.sort();
    let mask = combined_mask(&rows);
    Answer::Table { rows, mask }
}

/// `max_extended_state` is private, and the leaf set doesn't carry it. In a built table D.1.ECX and EDX are XSS, as they are cleared where
/// XSS is 0, so that D.0 and D.1 give it back.
fn combined_mask(rows: &[Row]) -> u64 {
    let registers = |subleaf| rows.iter().find(|row| (row.leaf, row.subleaf) == (0xd, Some(subleaf))).map_or([0; 4], |row| row.registers);
    let [eax, _, _, edx] = registers(0);
    let [_, _, xss_low, xss_high] = registers(1);
    u64::from(edx | xss_high) << 32 | u64::from(eax | xss_low)
}

/// One run for the driver in bench/: the rows of the table, or 0 where the Rust refuses.
///
/// # Safety
/// `pages` must be good for reading `length` bytes.
#[unsafe(no_mangle)]
pub unsafe extern "C" fn oracle_rows(pages: *const u8, length: usize) -> usize {
    // SAFETY: the caller's promise
    let pages = unsafe { std::slice::from_raw_parts(pages, length) };
    // five of the leaves are the hypervisor's
    leaves(pages, false).map_or(0, |leaves| leaves.leaves().len() - 5)
}
