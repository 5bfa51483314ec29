//! Stands in for the module of TDX, which the SNP path never enters.

use super::*;

pub enum TdxCpuidInitializer {}

impl TdxCpuidInitializer {
    pub fn new(_: &ProcessorTopology<X86Topology>, _access_vsm: bool, _vtom: u64) -> Self {
        unreachable!()
    }
}

impl CpuidArchInitializer for TdxCpuidInitializer {
    fn vendor(&self) -> cpuid::Vendor {
        match *self {}
    }

    fn max_function(&self) -> u32 {
        match *self {}
    }

    fn extended_max_function(&self) -> u32 {
        match *self {}
    }

    fn additional_leaf_mask(&self, _: CpuidFunction, _: u32) -> Option<CpuidResultMask> {
        match *self {}
    }

    fn validate_results(&self, _: &CpuidResults) -> Result<(), CpuidResultsError> {
        match *self {}
    }

    fn cpuid_info(&self) -> Vec<ParsedCpuidEntry> {
        match *self {}
    }

    fn process_extended_state_subleaves(
        &self,
        _: &mut CpuidSubtable,
        _: u64,
    ) -> Result<(), CpuidResultsError> {
        match *self {}
    }

    fn extended_topology(
        &self,
        _: cpuid::VersionAndFeaturesEbx,
        _: cpuid::VersionAndFeaturesEdx,
        _: cpuid::ExtendedAddressSpaceSizesEcx,
        _: Option<cpuid::ProcessorTopologyDefinitionEbx>,
    ) -> Result<ExtendedTopologyResult, CpuidResultsError> {
        match *self {}
    }

    fn btc_no(&self) -> Option<bool> {
        match *self {}
    }

    fn supports_tsc_aux_virtualization(&self, _: &CpuidResults) -> bool {
        match *self {}
    }

    fn hv_cpuid_leaves(&self) -> [(CpuidFunction, CpuidResult); 5] {
        match *self {}
    }

    fn update_xsave_dependencies(&self, _: u64, _: &mut CpuidResults) {
        match *self {}
    }
}
