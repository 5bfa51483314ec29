//! Leaves and registers under the names of x86defs.
//!
//! Places are from AMD64 APM volume 3, appendix E; PCID and x2APIC of 1.ECX, and dep_x87_fpu_save, umwait_tpause, cldemote, serialize and
//! avx512_fp16 of leaf 7 from the Intel SDM. `nc` is a `u8`, which is what makes `nc() + 1` overflow at 255 (document 01, "Corners of
//! snp.rs").

/// A leaf number.
#[derive(Clone, Copy, Debug, PartialEq, Eq, Hash, PartialOrd, Ord)]
pub struct CpuidFunction(pub u32);

macro_rules! functions {
    ($($name:ident = $leaf:literal,)*) => {
        #[allow(non_upper_case_globals)]
        impl CpuidFunction {
            $(pub const $name: Self = Self($leaf);)*
        }
    };
}

functions! {
    VendorAndMaxFunction = 0x00000000,
    VersionAndFeatures = 0x00000001,
    MonitorMwait = 0x00000005,
    ExtendedFeatures = 0x00000007,
    ExtendedTopologyEnumeration = 0x0000000b,
    ExtendedStateEnumeration = 0x0000000d,
    ExtendedMaxFunction = 0x80000000,
    ExtendedVersionAndFeatures = 0x80000001,
    ExtendedBrandingString1 = 0x80000002,
    ExtendedBrandingString2 = 0x80000003,
    ExtendedBrandingString3 = 0x80000004,
    ExtendedL1CacheParameters = 0x80000005,
    ExtendedL2CacheParameters = 0x80000006,
    ExtendedPowerManagement = 0x80000007,
    ExtendedAddressSpaceSizes = 0x80000008,
    ExtendedSvmVersionAndFeatures = 0x8000000a,
    ExtendedTlb1GBIdentifiers = 0x80000019,
    ExtendedOptimizationIdentifiers = 0x8000001a,
    CacheTopologyDefinition = 0x8000001d,
    ProcessorTopologyDefinition = 0x8000001e,
    ExtendedSevFeatures = 0x8000001f,
    // The two maxima, as the port has them (docs/DECISIONS.md): with this crate they are agreed upon, not compared.
    AmdMaximum = 0x0000000d,
    ExtendedAmdMaximum = 0x8000001f,
}

pub struct Vendor(&'static [u8; 12]);

impl Vendor {
    pub const AMD: Self = Self(b"AuthenticAMD");

    /// The registers in the order of the name; the vendor's name is read as EBX, EDX, ECX.
    pub fn to_ebx_ecx_edx(&self) -> (u32, u32, u32) {
        let part = |at: usize| u32::from_le_bytes([0, 1, 2, 3].map(|byte| self.0[at + byte]));
        (part(0), part(8), part(4))
    }
}

bitfield!(VersionAndFeaturesEax {
    processor_stepping: u8 = 0, 4;
    processor_model: u8 = 4, 4;
    processor_family: u8 = 8, 4;
    processor_type: u8 = 12, 2;
    extended_model: u8 = 16, 4;
    extended_family: u8 = 20, 8;
});

bitfield!(VersionAndFeaturesEbx {
    brand_index: u8 = 0, 8;
    clflush_line_size: u8 = 8, 8;
    lps_per_package: u8 = 16, 8;
    initial_apic_id: u8 = 24, 8;
});

flags!(VersionAndFeaturesEcx {
    sse3 = 0; pclmulqdq = 1; ssse3 = 9; fma = 12; cx16 = 13; pcid = 17; sse4_1 = 19; sse4_2 = 20; x2_apic = 21; movbe = 22;
    pop_cnt = 23; aes = 25; xsave = 26; os_xsave = 27; avx = 28; f16c = 29; rd_rand = 30; hypervisor_present = 31;
});

flags!(VersionAndFeaturesEdx {
    fpu = 0; vme = 1; de = 2; pse = 3; tsc = 4; msr = 5; pae = 6; mce = 7; cx8 = 8; apic = 9; sep = 11; mtrr = 12; pge = 13; mca = 14;
    cmov = 15; pat = 16; pse36 = 17; cl_fsh = 19; mmx = 23; fxsr = 24; sse = 25; sse2 = 26; mt_per_socket = 28;
});

flags!(ExtendedFeatureSubleaf0Ebx {
    rd_wr_fs_gs = 0; bmi1 = 3; avx2 = 5; smep = 7; bmi2 = 8; enhanced_fast_string = 9; inv_pcid = 10; dep_x87_fpu_save = 13; avx512f = 16;
    avx512dq = 17; rd_seed = 18; adx = 19; smap = 20; avx512_ifma = 21; clflushopt = 23; clwb = 24; avx512cd = 28; sha = 29;
    avx512bw = 30; avx512vl = 31;
});

flags!(ExtendedFeatureSubleaf0Ecx {
    avx512_vbmi = 1; umip = 2; umwait_tpause = 5; avx512_vbmi2 = 6; cet_ss = 7; gfni = 8; vaes = 9; vpclmulqdq = 10; avx512_vnni = 11;
    avx512_bitalg = 12; avx512_vpopcntdq = 14; rd_pid = 22; cldemote = 25; movdiri = 27; movdir64b = 28;
});

flags!(ExtendedFeatureSubleaf0Edx {
    fast_short_rep_move = 4; avx512_vp2_intersect = 8; serialize = 14; avx512_fp16 = 23;
});

bitfield!(ExtendedTopologyEax {
    x2_apic_shift: u32 = 0, 5;
});

bitfield!(ExtendedTopologyEbx {
    num_lps: u16 = 0, 16;
});

bitfield!(ExtendedTopologyEcx {
    level_number: u8 = 0, 8;
    level_type: u8 = 8, 8;
});

flags!(ExtendedStateEnumerationSubleaf0Eax {
    x87 = 0; sse = 1; avx = 2; opmask = 5; zmmhi = 6; zmm16_31 = 7;
});

flags!(ExtendedStateEnumerationSubleaf1Eax {
    xsave_opt = 0; xsave_c = 1; xsave_s = 3;
});

/// The same fields as those of leaf 1.
pub type ExtendedVersionAndFeaturesEax = VersionAndFeaturesEax;

bitfield!(ExtendedVersionAndFeaturesEbx {
    brand_id: u16 = 0, 16;
    pkg_type: u8 = 28, 4;
});

flags!(ExtendedVersionAndFeaturesEcx {
    lahf_sahf_available = 0; cmp_legacy = 1; alt_mov_cr8 = 4; abm = 5; sse4_a = 6; mis_align_sse = 7; prefetch = 8; ibs = 10; xop = 11;
    fma4 = 16; topology_extensions = 22;
});

flags!(ExtendedVersionAndFeaturesEdx {
    fpu = 0; vme = 1; de = 2; pse = 3; tsc = 4; msr = 5; pae = 6; mce = 7; cx8 = 8; apic = 9; syscall = 11; mtrr = 12; pge = 13; mca = 14;
    cmov = 15; pat = 16; pse36 = 17; no_execute = 20; amd_mmx = 22; mmx = 23; fxsr = 24; fast_fxsr = 25; page_1gb = 26; rdtscp = 27;
    long_mode = 29; extended3d_now = 30; amd3d_now = 31;
});

bitfield!(ExtendedAddressSpaceSizesEax {
    physical_address_size: u8 = 0, 8;
    virtual_address_size: u8 = 8, 8;
});

flags!(ExtendedAddressSpaceSizesEbx {
    cl_zero = 0; inst_ret_cnt_msr = 1; x_save_er_ptr = 2; invlpgb = 3; rdpru = 4; wbnoinvd = 9; ibpb = 12; ibrs = 14; stibp = 15;
    stibp_always_on = 17; efer_lmsle_unsupported = 20; ssbd = 24; psfd = 28; btc_no = 29;
});

bitfield!(ExtendedAddressSpaceSizesEcx {
    nc: u8 = 0, 8;
    apic_core_id_size: u8 = 12, 4;
});

bitfield!(ExtendedAddressSpaceSizesEdx {
    invlpgb_count_max: u16 = 0, 16;
    rdpru_max_ecx: u16 = 16, 16;
});

bitfield!(ExtendedSvmVersionAndFeaturesEax {
    svm_rev: u8 = 0, 8;
});

flags!(ExtendedOptimizationIdentifiersEax {
    fp128 = 0; mov_u = 1; fp256 = 2;
});

bitfield!(ProcessorTopologyDefinitionEbx {
    threads_per_compute_unit: u8 = 8, 8;
});

flags!(ExtendedSevFeaturesEax {
    sme = 0; sev = 1; vmpage_flush_msr_available = 2; sev_es = 3; sev_snp = 4; vmpl = 5; rmp_query = 6; tsc_aux_virtualization = 9;
    secure_avic = 26;
});

bitfield!(ExtendedSevFeaturesEbx {
    cbit_position: u8 = 0, 6;
    encryption_physical_bits_used: u8 = 6, 6;
    number_of_vmpls: u8 = 12, 4;
});
