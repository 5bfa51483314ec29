//! Components of the extended state: AMD64 APM volume 3, Fn0000_000D; the legacy area with its header is 576 bytes.

pub const X86X_XSAVE_LEGACY_FEATURES: u64 = 0x3;
pub const X86X_XSAVE_NUM_LEGACY_FEATURES: u32 = 2;
pub const XSAVE_MINIMUM_XSAVE_AREA_SIZE: u32 = 576;

pub const XFEATURE_SSE: u64 = 0x2;
pub const XFEATURE_YMM: u64 = 0x4;
pub const XFEATURE_AVX512: u64 = 0xe0;
pub const XSAVE_SUPERVISOR_FEATURE_CET: u64 = 0x1800;
