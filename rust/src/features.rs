//! The names of feature bits, for whoever tells a reader what a table has.
//!
//! A test holds them against the specification that the proofs are of, the public database of CPUID bits and the masks of the library.
//!
//! ```
//! use snp_cpuid::{Options, Table, features};
//!
//! let pages = std::fs::read("epyc-milan.pages").unwrap();
//! let table = Table::build(&pages, Options::new()).unwrap();
//! // 7.0.EBX
//! let found = features::find(0x7, Some(0), features::EBX).unwrap();
//! let names: Vec<&str> = found.bits_of(table.row(0x7, Some(0)).unwrap().ebx).map(|bit| bit.name).collect();
//! assert!(names.contains(&"AVX2") && !names.contains(&"AVX512F"));
//! ```

/// The names of the registers, by their place in a result.
pub const REGISTERS: [&str; 4] = ["EAX", "EBX", "ECX", "EDX"];
/// The place of EAX.
pub const EAX: usize = 0;
/// The place of EBX.
pub const EBX: usize = 1;
/// The place of ECX.
pub const ECX: usize = 2;
/// The place of EDX.
pub const EDX: usize = 3;

/// A feature register with the bits that its mask keeps, by the names of AMD64 APM volume 3 (by the Intel SDM's where it has none).
#[derive(Clone, Copy, Debug, PartialEq, Eq)]
pub struct FeatureRegister {
    /// the leaf
    pub leaf: u32,
    /// the subleaf; none for a leaf without
    pub subleaf: Option<u32>,
    /// the register, by its place in a result
    pub register: usize,
    /// the bits with their names, rising
    pub bits: &'static [(u32, &'static str)],
}

const fn register(leaf: u32, subleaf: Option<u32>, register: usize, bits: &'static [(u32, &'static str)]) -> FeatureRegister {
    FeatureRegister { leaf, subleaf, register, bits }
}

/// The feature registers: in these a server to which a guest moves may have more bits.
#[rustfmt::skip]
pub const FEATURES: [FeatureRegister; 13] = [
    register(0x1, None, ECX, &[
        (0, "SSE3"), (1, "PCLMULQDQ"), (9, "SSSE3"), (12, "FMA"), (13, "CMPXCHG16B"), (17, "PCID"), (19, "SSE41"), (20, "SSE42"),
        (22, "MOVBE"), (23, "POPCNT"), (25, "AES"), (26, "XSAVE"), (27, "OSXSAVE"), (28, "AVX"), (29, "F16C"), (30, "RDRAND"),
        (31, "Hypervisor"),
    ]),
    register(0x1, None, EDX, &[
        (0, "FPU"), (1, "VME"), (2, "DE"), (3, "PSE"), (4, "TSC"), (5, "MSR"), (6, "PAE"), (7, "MCE"), (8, "CMPXCHG8B"), (9, "APIC"),
        (11, "SysEnterSysExit"), (12, "MTRR"), (13, "PGE"), (14, "MCA"), (15, "CMOV"), (16, "PAT"), (17, "PSE36"), (19, "CLFSH"),
        (23, "MMX"), (24, "FXSR"), (25, "SSE"), (26, "SSE2"), (28, "HTT"),
    ]),
    register(0x7, Some(0), EBX, &[
        (0, "FSGSBASE"), (3, "BMI1"), (5, "AVX2"), (7, "SMEP"), (8, "BMI2"), (9, "ERMS"), (10, "INVPCID"), (13, "ZeroFcsFds"),
        (16, "AVX512F"), (17, "AVX512DQ"), (18, "RDSEED"), (19, "ADX"), (20, "SMAP"), (21, "AVX512_IFMA"), (23, "CLFLUSHOPT"),
        (24, "CLWB"), (28, "AVX512CD"), (29, "SHA"), (30, "AVX512BW"), (31, "AVX512VL"),
    ]),
    register(0x7, Some(0), ECX, &[
        (1, "AVX512_VBMI"), (2, "UMIP"), (5, "WAITPKG"), (6, "AVX512_VBMI2"), (7, "CET_SS"), (8, "GFNI"), (9, "VAES"),
        (10, "VPCLMULQDQ"), (11, "AVX512_VNNI"), (12, "AVX512_BITALG"), (14, "AVX512_VPOPCNTDQ"), (22, "RDPID"), (25, "CLDEMOTE"),
        (27, "MOVDIRI"), (28, "MOVDIR64B"),
    ]),
    register(0x7, Some(0), EDX, &[(4, "FSRM"), (8, "AVX512_VP2INTERSECT"), (14, "SERIALIZE"), (23, "AVX512_FP16")]),
    register(0xD, Some(0), EAX, &[(0, "x87"), (1, "SSE"), (2, "AVX"), (5, "opmask"), (6, "ZMM_Hi256"), (7, "Hi16_ZMM")]),
    register(0xD, Some(1), EAX, &[(0, "XSAVEOPT"), (1, "XSAVEC"), (3, "XSAVES")]),
    register(0xD, Some(1), ECX, &[(11, "CET_U"), (12, "CET_S")]),
    register(0x8000_0001, None, ECX, &[
        (0, "LahfSahf"), (1, "CmpLegacy"), (4, "AltMovCr8"), (5, "ABM"), (6, "SSE4A"), (7, "MisAlignSse"), (8, "3DNowPrefetch"),
        (10, "IBS"), (11, "XOP"), (16, "FMA4"), (22, "TopologyExtensions"),
    ]),
    register(0x8000_0001, None, EDX, &[
        (0, "FPU"), (1, "VME"), (2, "DE"), (3, "PSE"), (4, "TSC"), (5, "MSR"), (6, "PAE"), (7, "MCE"), (8, "CMPXCHG8B"), (9, "APIC"),
        (11, "SysCallSysRet"), (12, "MTRR"), (13, "PGE"), (14, "MCA"), (15, "CMOV"), (16, "PAT"), (17, "PSE36"), (20, "NX"),
        (22, "MmxExt"), (23, "MMX"), (24, "FXSR"), (25, "FFXSR"), (26, "Page1GB"), (27, "RDTSCP"), (29, "LM"), (30, "3DNowExt"),
        (31, "3DNow"),
    ]),
    register(0x8000_0008, None, EBX, &[
        (0, "CLZERO"), (1, "InstRetCntMsr"), (2, "RstrFpErrPtrs"), (3, "INVLPGB"), (4, "RDPRU"), (9, "WBNOINVD"), (12, "IBPB"),
        (14, "IBRS"), (15, "STIBP"), (17, "StibpAlwaysOn"), (20, "EferLmsleUnsupported"), (24, "SSBD"), (28, "PSFD"), (29, "BTC_NO"),
    ]),
    register(0x8000_001A, None, EAX, &[(0, "FP128"), (1, "MOVU"), (2, "FP256")]),
    register(0x8000_001F, None, EAX, &[
        (0, "SME"), (1, "SEV"), (2, "PageFlushMsr"), (3, "SEV-ES"), (4, "SEV-SNP"), (5, "VMPL"), (6, "RMPQUERY"),
        (9, "TscAuxVirtualization"), (26, "SecureAvic"),
    ]),
];

/// The feature register at a row's register; none where that is no feature register.
#[must_use]
pub fn find(leaf: u32, subleaf: Option<u32>, register: usize) -> Option<&'static FeatureRegister> {
    FEATURES.iter().find(|f| (f.leaf, f.subleaf, f.register) == (leaf, subleaf, register))
}

/// A feature bit with its register's place.
#[derive(Clone, Copy, Debug, PartialEq, Eq)]
pub struct FeatureBit {
    /// the leaf
    pub leaf: u32,
    /// the subleaf; none for a leaf without
    pub subleaf: Option<u32>,
    /// the register, by its place in a result
    pub register: usize,
    /// the bit
    pub bit: u32,
    /// its name
    pub name: &'static str,
}

impl FeatureRegister {
    /// The bits that are set in a value.
    pub fn bits_of(&self, value: u32) -> impl Iterator<Item = FeatureBit> {
        let FeatureRegister { leaf, subleaf, register, bits } = *self;
        let set = bits.iter().filter(move |(bit, _)| value >> bit & 1 == 1);
        set.map(move |&(bit, name)| FeatureBit { leaf, subleaf, register, bit, name })
    }

    /// The names of the bits that are set in a value.
    #[must_use]
    #[cfg(feature = "std")]
    pub fn names(&self, value: u64) -> Vec<&'static str> {
        self.bits.iter().filter(|(bit, _)| value >> bit & 1 == 1).map(|(_, name)| *name).collect()
    }
}
