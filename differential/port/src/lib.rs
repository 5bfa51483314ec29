//! The exported functions of the port, as the crate in rust/ declares them, called with byte slices.

pub use snp_cpuid::Options;
pub use snp_cpuid::exports::Built;
pub use snp_cpuid::exports::Found;
pub use snp_cpuid::exports::Written;
use snp_cpuid::exports::snp_cpuid_build;
use snp_cpuid::exports::snp_cpuid_lookup;
use snp_cpuid::exports::snp_cpuid_write_image;
use std::ptr;

/// The header allows null where the length is 0, and that is what an empty slice goes as.
fn start(bytes: &[u8]) -> *const u8 {
    if bytes.is_empty() { ptr::null() } else { bytes.as_ptr() }
}

pub fn build(pages: &[u8], options: Options) -> Built {
    // SAFETY: the pointer is good for reading `len` bytes.
    unsafe { snp_cpuid_build(start(pages), pages.len(), options.secure_avic, options.edition) }
}

/// A row to look up. Where `has_subleaf` is false, `subleaf` must not matter.
#[derive(Clone, Copy, Debug)]
pub struct Asked {
    pub leaf: u32,
    pub has_subleaf: bool,
    pub subleaf: u32,
    pub enforce: bool,
}

pub fn lookup(pages: &[u8], options: Options, asked: Asked) -> Found {
    let Asked { leaf, has_subleaf, subleaf, enforce } = asked;
    // SAFETY: as in `build`.
    unsafe { snp_cpuid_lookup(start(pages), pages.len(), options.secure_avic, options.edition, leaf, has_subleaf, subleaf, enforce) }
}

pub fn write_image(pages: &[u8], options: Options, out: &mut [u8]) -> Written {
    let room = out.len();
    let front = if room == 0 { ptr::null_mut() } else { out.as_mut_ptr() };
    // SAFETY: as in `build`; `front` is good for writing `room` bytes, and no other reference to them is alive.
    unsafe { snp_cpuid_write_image(start(pages), pages.len(), options.secure_avic, options.edition, front, room) }
}
