//! A CPUID page: document 01, "Page bytes" (SEV-SNP Firmware ABI).

use zerocopy::FromZeros;
use zerocopy::IntoBytes;

#[repr(C)]
#[derive(Clone, Copy)]
pub struct HvPspCpuidLeaf {
    pub eax_in: u32,
    pub ecx_in: u32,
    pub xfem_in: u64,
    pub xss_in: u64,
    pub eax_out: u32,
    pub ebx_out: u32,
    pub ecx_out: u32,
    pub edx_out: u32,
    reserved: u64,
}

#[repr(C)]
#[derive(Clone, Copy)]
pub struct HvPspCpuidPage {
    pub count: u32,
    reserved: [u32; 3],
    pub cpuid_leaf_info: [HvPspCpuidLeaf; 64],
    unused: [u64; 126],
}

const _: () = assert!(size_of::<HvPspCpuidLeaf>() == 48 && size_of::<HvPspCpuidPage>() == 4096);

// SAFETY: numbers and arrays of them; any bytes are a value, and the sizes above leave no room for padding.
unsafe impl FromZeros for HvPspCpuidPage {}
unsafe impl IntoBytes for HvPspCpuidPage {}
