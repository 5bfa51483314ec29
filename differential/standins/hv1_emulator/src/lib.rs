//! Stand-in for hv1_emulator: five leaves of the hypervisor's range, all zero. They are dropped before anything is compared (document 01,
//! first paragraph); what matters is that they are five and stand in that range.

pub mod cpuid {
    use core::arch::x86_64::CpuidResult;
    use hvdef::HvEnlightenmentInformation;
    use hvdef::HvFeatures;
    use hvdef::HvHardwareFeatures;
    use hvdef::HvIsolationConfiguration;
    use hvdef::HvPartitionPrivilege;
    use x86defs::cpuid::CpuidFunction;

    pub const SUPPORTED_PRIVILEGES: HvPartitionPrivilege = HvPartitionPrivilege::new();
    pub const SUPPORTED_FEATURES: HvFeatures = HvFeatures::new();

    type Leaf = (CpuidFunction, CpuidResult);

    fn zero(leaf: u32) -> Leaf {
        let registers = CpuidResult { eax: 0, ebx: 0, ecx: 0, edx: 0 };
        (CpuidFunction(leaf), registers)
    }

    pub fn make_hv_cpuid_leaves(_features: HvFeatures, _enlightenments: HvEnlightenmentInformation, _max_cpus: u32) -> [Leaf; 3] {
        [0x40000003, 0x40000004, 0x40000005].map(zero)
    }

    pub fn make_isolated_hv_cpuid_leaves(_hardware: HvHardwareFeatures, _isolation: HvIsolationConfiguration) -> [Leaf; 2] {
        [0x40000006, 0x4000000c].map(zero)
    }
}
