//! The SNP path of OpenHCL's `cvm_cpuid` over the proved library, under the same names. The five leaves of the hypervisor are handed in: they say
//! what the paravisor offers, not what the server has.

use core::arch::x86_64::CpuidResult;
use snp_cpuid::Options;
use snp_cpuid::Refusal;
use snp_cpuid::Row;
use std::error::Error;
use std::fmt;
use virt::CpuidLeaf;
use virt::CpuidLeafSet;
use x86defs::cpuid::CpuidFunction;

/// What the leaves of a guest are made of.
pub enum CpuidResultsIsolationType<'a> {
    /// An SNP guest.
    Snp {
        /// the CPUID pages, end to end
        cpuid_pages: &'a [u8],
        /// whether secure AVIC is on
        secure_avic: bool,
        /// the leaves of the hypervisor, which come out as they are
        hv_cpuid_leaves: [(CpuidFunction, CpuidResult); 5],
    },
}

impl CpuidResultsIsolationType<'_> {
    /// The leaves of the guest, by rising leaf and subleaf, and then the hypervisor's.
    pub fn build(self) -> Result<CpuidLeafSet, CpuidResultsError> {
        let Self::Snp { cpuid_pages, secure_avic, hv_cpuid_leaves } = self;
        let table = snp_cpuid::build(cpuid_pages, Options::new().secure_avic(secure_avic))?;
        let hypervisor = hv_cpuid_leaves.map(|(function, r)| CpuidLeaf::new(function.0, [r.eax, r.ebx, r.ecx, r.edx]));
        Ok(CpuidLeafSet::new(table.rows().map(leaf).chain(hypervisor).collect()))
    }
}

fn leaf(row: Row) -> CpuidLeaf {
    let r = row.result;
    let leaf = CpuidLeaf::new(row.leaf, [r.eax, r.ebx, r.ecx, r.edx]);
    match row.subleaf {
        Some(subleaf) => leaf.indexed(subleaf),
        None => leaf,
    }
}

/// How the topology leaves disagree, by the names and words of `cvm_cpuid`; TDX has them too.
#[derive(Debug, PartialEq)]
pub enum TopologyError {
    /// The processor count against the hyperthreading flag.
    Hyperthreading(u8),
    /// The processor counts of two leaves.
    ProcessorCount(u8),
    /// The threads of a compute unit.
    ThreadsPerUnit,
}

/// Why there are no leaves, by the names and words of `cvm_cpuid`.
#[derive(Debug, PartialEq)]
pub enum CpuidResultsError {
    /// A required leaf, or subleaf of it, has no entry.
    MissingRequiredResult(CpuidFunction, Option<u32>),
    /// The topology leaves disagree.
    TopologyInconsistent(TopologyError),
    /// INVLPGB is required but unavailable.
    InvlpgbUnavailable,
    /// What OpenHCL's own code panics at (the length of the pages, a page's count, a size that overflows) or does not look at (reserved bytes).
    Refused(Refusal),
}

impl From<Refusal> for CpuidResultsError {
    fn from(refusal: Refusal) -> Self {
        use snp_cpuid::TopologyError as Why;
        match refusal {
            Refusal::MissingRequiredResult(leaf, subleaf) => Self::MissingRequiredResult(CpuidFunction(leaf), subleaf),
            Refusal::TopologyInconsistent(Why::Hyperthreading(s)) => Self::TopologyInconsistent(TopologyError::Hyperthreading(s)),
            Refusal::TopologyInconsistent(Why::ProcessorCount(s)) => Self::TopologyInconsistent(TopologyError::ProcessorCount(s)),
            Refusal::TopologyInconsistent(Why::ThreadsPerUnit) => Self::TopologyInconsistent(TopologyError::ThreadsPerUnit),
            Refusal::InvlpgbUnavailable => Self::InvlpgbUnavailable,
            other => Self::Refused(other),
        }
    }
}

impl fmt::Display for TopologyError {
    fn fmt(&self, f: &mut fmt::Formatter<'_>) -> fmt::Result {
        match self {
            Self::Hyperthreading(s) => write!(f, "topology provided is inconsistent with hyperthreading configuration; apic core id size {s}"),
            Self::ProcessorCount(s) => write!(f, "processor count inconsistency; apic core id size {s}"),
            Self::ThreadsPerUnit => f.write_str("threads per unit count is inconsistent"),
        }
    }
}

impl fmt::Display for CpuidResultsError {
    fn fmt(&self, f: &mut fmt::Formatter<'_>) -> fmt::Result {
        match self {
            Self::MissingRequiredResult(leaf, subleaf) => write!(f, "missing required result for leaf {leaf:?} subleaf {subleaf:?}"),
            Self::TopologyInconsistent(_) => f.write_str("provided topology values are inconsistent"),
            Self::InvlpgbUnavailable => f.write_str("Invlpgb is required but unavailable"),
            Self::Refused(_) => f.write_str("the cpuid pages are refused"),
        }
    }
}

impl Error for TopologyError {}

impl Error for CpuidResultsError {
    fn source(&self) -> Option<&(dyn Error + 'static)> {
        match self {
            Self::TopologyInconsistent(why) => Some(why),
            Self::Refused(why) => Some(why),
            Self::MissingRequiredResult(..) | Self::InvlpgbUnavailable => None,
        }
    }
}
