//! Stand-in for hvdef: the fields of the hypervisor's leaves. Those leaves are dropped before anything is compared (document 01, first
//! paragraph), so a field is accepted and forgotten.

/// A struct whose `with_..` functions take a value and keep nothing.
macro_rules! forgetful {
    ($name:ident { $($field:ident: $type:ty),* $(,)? }) => {
        #[derive(Clone, Copy, Default)]
        pub struct $name;

        impl $name {
            pub const fn new() -> Self {
                Self
            }

            $(pub const fn $field(self, _: $type) -> Self {
                self
            })*
        }
    };
}

pub struct HvPartitionIsolationType(pub u8);

impl HvPartitionIsolationType {
    pub const SNP: Self = Self(2);
}

forgetful!(HvPartitionPrivilege {
    with_access_frequency_msrs: bool,
    with_access_apic_msrs: bool,
    with_start_virtual_processor: bool,
    with_enable_extended_gva_ranges_flush_va_list: bool,
    with_access_guest_idle_msr: bool,
    with_access_vsm: bool,
    with_access_vp_registers: bool,
    with_isolation: bool,
    with_fast_hypercall_output: bool,
});

forgetful!(HvFeatures {
    with_privileges: HvPartitionPrivilege,
    with_frequency_regs_available: bool,
    with_direct_synthetic_timers: bool,
    with_extended_gva_ranges_for_flush_virtual_address_list_available: bool,
    with_guest_idle_available: bool,
    with_xmm_registers_for_fast_hypercall_available: bool,
    with_register_pat_available: bool,
    with_fast_hypercall_output_available: bool,
    with_translate_gva_flags_available: bool,
    with_guest_crash_regs_available: bool,
});

forgetful!(HvEnlightenmentInformation {
    with_deprecate_auto_eoi: bool,
    with_use_relaxed_timing: bool,
    with_use_ex_processor_masks: bool,
    with_use_apic_msrs: bool,
    with_long_spin_wait_count: u32,
    with_use_hypercall_for_remote_flush_and_local_flush_entire: bool,
    with_use_synthetic_cluster_ipi: bool,
});

forgetful!(HvHardwareFeatures {
    with_apic_overlay_assist_in_use: bool,
    with_msr_bitmaps_in_use: bool,
    with_second_level_address_translation_in_use: bool,
    with_dma_remapping_in_use: bool,
    with_interrupt_remapping_in_use: bool,
});

forgetful!(HvIsolationConfiguration {
    with_paravisor_present: bool,
    with_isolation_type: u8,
    with_shared_gpa_boundary_active: bool,
    with_shared_gpa_boundary_bits: u8,
});
