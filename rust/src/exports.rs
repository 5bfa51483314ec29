//! The exported functions on plain numbers, as include/snp_cpuid.h documents them; the crate's root has the safe way in.
//! Made from the proved source by `tests/gate/interface.py --write`.

#![allow(missing_docs)]

#[repr(C)]
#[derive(Clone, Copy, Debug, Default, PartialEq, Eq)]
pub struct Built {
    pub number: u32,
    pub leaf: u32,
    pub has_subleaf: u32,
    pub subleaf: u32,
    pub s: u32,
    pub row_count: u64,
    pub max_extended_state: u64,
}

#[repr(C)]
#[derive(Clone, Copy, Debug, Default, PartialEq, Eq)]
pub struct Found {
    pub found: u32,
    pub eax: u32,
    pub ebx: u32,
    pub ecx: u32,
    pub edx: u32,
    pub origin: u32,
    pub page: u64,
    pub entry: u32,
}

#[repr(C)]
#[derive(Clone, Copy, Debug, Default, PartialEq, Eq)]
pub struct Written {
    pub number: u32,
    pub leaf: u32,
    pub has_subleaf: u32,
    pub subleaf: u32,
    pub s: u32,
    pub length: u64,
}

#[repr(C)]
#[derive(Clone, Copy, Debug, Default, PartialEq, Eq)]
pub struct First {
    pub number: u32,
    pub leaf: u32,
    pub has_subleaf: u32,
    pub subleaf: u32,
    pub s: u32,
    pub found: u32,
    pub page: u64,
    pub entry: u32,
}

#[repr(C)]
#[derive(Clone, Copy, Debug, Default, PartialEq, Eq)]
pub struct GuestFound {
    pub number: u32,
    pub found: u32,
    pub eax: u32,
    pub ebx: u32,
    pub ecx: u32,
    pub edx: u32,
    pub origin: u32,
    pub page: u64,
    pub entry: u32,
}

#[repr(C)]
#[derive(Clone, Copy, Debug, Default, PartialEq, Eq)]
pub struct State {
    pub number: u32,
    pub size: u32,
}

#[repr(C)]
#[derive(Clone, Copy, Debug, Default, PartialEq, Eq)]
pub struct Counts {
    pub row_count: u64,
    pub max_extended_state: u64,
}

#[repr(C)]
#[derive(Clone, Copy, Debug, Default, PartialEq, Eq)]
pub struct Read {
    pub is_image: u32,
    pub row_count: u64,
    pub max_extended_state: u64,
}

#[repr(C)]
#[derive(Clone, Copy, Debug, Default, PartialEq, Eq)]
pub struct Carried {
    pub is_image: u32,
    pub number: u32,
}

#[repr(C)]
#[derive(Clone, Copy, Debug, Default, PartialEq, Eq)]
pub struct Compared {
    pub answer: u32,
    pub number: u32,
    pub leaf: u32,
    pub has_subleaf: u32,
    pub subleaf: u32,
    pub s: u32,
    pub register_index: u32,
}

#[repr(C)]
#[derive(Clone, Copy, Debug, Default, PartialEq, Eq)]
pub struct TablesCompared {
    pub answer: u32,
    pub leaf: u32,
    pub has_subleaf: u32,
    pub subleaf: u32,
    pub register_index: u32,
}

#[repr(C)]
#[derive(Clone, Copy, Debug, Default, PartialEq, Eq)]
pub struct LineWritten {
    pub is_line: u32,
    pub number: u32,
    pub length: u64,
}

#[repr(C)]
#[derive(Clone, Copy, Debug, Default, PartialEq, Eq)]
pub struct LineRead {
    pub is_line: u32,
    pub number: u32,
    pub leaf: u32,
    pub has_subleaf: u32,
    pub subleaf: u32,
    pub s: u32,
}

#[repr(C)]
#[derive(Clone, Copy, Debug, Default, PartialEq, Eq)]
pub struct Nearest {
    pub number: u32,
    pub leaf: u32,
    pub has_subleaf: u32,
    pub subleaf: u32,
    pub s: u32,
    pub entry: u32,
    pub page: u64,
    pub register_index: u32,
    pub bit: u32,
}

#[repr(C)]
#[derive(Clone, Copy, Debug, Default, PartialEq, Eq)]
pub struct Pooled {
    pub number: u32,
    pub leaf: u32,
    pub has_subleaf: u32,
    pub subleaf: u32,
    pub s: u32,
    pub server: u32,
    pub row_count: u64,
    pub max_extended_state: u64,
}

#[repr(C)]
#[derive(Clone, Copy, Debug, PartialEq, Eq)]
pub struct Table {
    pub registers: [u32; 352],
    pub origins: [u64; 88],
}

/// Refers to the symbol of the library that has these declarations, by a no-op that names it: another library does not link.
#[inline(always)]
pub(crate) fn same_interface() {
    // SAFETY: the instruction does nothing
    unsafe { core::arch::asm!("nopl snp_cpuid_interface_f2fe8a5e(%rip)", options(att_syntax, nomem, nostack, preserves_flags)) }
}

unsafe extern "C" {
    pub fn snp_cpuid_table_fingerprint(registers: *const u32, origins: *const u64, digest: *mut u8) -> Counts;
    pub fn snp_cpuid_table_pool(
        pages: *const u8,
        length: usize,
        lengths: *const u64,
        servers: usize,
        secure_avic: bool,
        edition: u32,
        registers: *mut u32,
        origins: *mut u64,
    ) -> Pooled;
    pub fn snp_cpuid_table_build(pages: *const u8, length: usize, secure_avic: bool, edition: u32, registers: *mut u32, origins: *mut u64) -> Built;
    pub fn snp_cpuid_table_read_image(image: *const u8, length: usize, registers: *mut u32, origins: *mut u64) -> Read;
    pub fn snp_cpuid_table_find(
        registers: *const u32,
        origins: *const u64,
        leaf: u32,
        has_subleaf: bool,
        subleaf: u32,
        enforce_subleaf: bool,
    ) -> Found;
    pub fn snp_cpuid_table_guest_find(
        registers: *const u32,
        origins: *const u64,
        x2apic: u32,
        xcr0: u64,
        xss: u64,
        osxsave: bool,
        leaf: u32,
        has_subleaf: bool,
        subleaf: u32,
        enforce_subleaf: bool,
    ) -> GuestFound;
    pub fn snp_cpuid_table_state(registers: *const u32, origins: *const u64, xcr0: u64, xss: u64) -> State;
    pub fn snp_cpuid_table_guest_find_kept(
        registers: *const u32,
        origins: *const u64,
        x2apic: u32,
        xcr0: u64,
        xss: u64,
        osxsave: bool,
        size: u32,
        leaf: u32,
        has_subleaf: bool,
        subleaf: u32,
        enforce_subleaf: bool,
    ) -> Found;
    pub fn snp_cpuid_table_guest(registers: *mut u32, origins: *mut u64, x2apic: u32, xcr0: u64, xss: u64, osxsave: bool) -> Built;
    pub fn snp_cpuid_table_write_image(registers: *const u32, origins: *const u64, out: *mut u8, room: usize) -> Written;
    pub fn snp_cpuid_table_write_kvm(registers: *const u32, origins: *const u64, out: *mut u8, room: usize) -> Written;
    pub fn snp_cpuid_table_carry(registers: *mut u32, origins: *const u64, from: u32, to: u32, xcr0: u64, xss: u64) -> u32;
    pub fn snp_cpuid_table_compare(a_registers: *const u32, a_origins: *const u64, b_registers: *const u32, b_origins: *const u64) -> TablesCompared;
    pub fn snp_cpuid_table_counts(registers: *const u32, origins: *const u64) -> Counts;
    pub fn snp_cpuid_build(pages: *const u8, length: usize, secure_avic: bool, edition: u32) -> Built;
    pub fn snp_cpuid_lookup(
        pages: *const u8,
        length: usize,
        secure_avic: bool,
        edition: u32,
        leaf: u32,
        has_subleaf: bool,
        subleaf: u32,
        enforce_subleaf: bool,
    ) -> Found;
    pub fn snp_cpuid_first_entry(pages: *const u8, length: usize, leaf: u32, subleaf: u32) -> First;
    pub fn snp_cpuid_write_image(pages: *const u8, length: usize, secure_avic: bool, edition: u32, out: *mut u8, room: usize) -> Written;
    pub fn snp_cpuid_compare(a: *const u8, a_length: usize, b: *const u8, b_length: usize, secure_avic: bool, edition: u32) -> Compared;
    pub fn snp_cpuid_carry(image: *mut u8, length: usize, from: u32, to: u32, xcr0: u64, xss: u64) -> Carried;
    pub fn snp_cpuid_fingerprint(pages: *const u8, length: usize, secure_avic: bool, edition: u32, digest: *mut u8) -> Built;
    pub fn snp_cpuid_guest_build(
        pages: *const u8,
        length: usize,
        secure_avic: bool,
        edition: u32,
        x2apic: u32,
        xcr0: u64,
        xss: u64,
        osxsave: bool,
    ) -> Built;
    pub fn snp_cpuid_guest_lookup(
        pages: *const u8,
        length: usize,
        secure_avic: bool,
        edition: u32,
        x2apic: u32,
        xcr0: u64,
        xss: u64,
        osxsave: bool,
        leaf: u32,
        has_subleaf: bool,
        subleaf: u32,
        enforce_subleaf: bool,
    ) -> Found;
    pub fn snp_cpuid_write_guest_image(
        pages: *const u8,
        length: usize,
        secure_avic: bool,
        edition: u32,
        x2apic: u32,
        xcr0: u64,
        xss: u64,
        osxsave: bool,
        out: *mut u8,
        room: usize,
    ) -> Written;
    pub fn snp_cpuid_write_kvm(pages: *const u8, length: usize, secure_avic: bool, edition: u32, out: *mut u8, room: usize) -> Written;
    pub fn snp_cpuid_read_kvm(list: *const u8, length: usize, out: *mut u8, room: usize) -> Written;
    pub fn snp_cpuid_write_line(number: u32, leaf: u32, has_subleaf: bool, subleaf: u32, s: u32, out: *mut u8, room: usize) -> LineWritten;
    pub fn snp_cpuid_read_line(line: *const u8, length: usize) -> LineRead;
    pub fn snp_cpuid_nearest(pages: *const u8, length: usize, secure_avic: bool, edition: u32) -> Nearest;
    pub fn snp_cpuid_pool(pages: *const u8, length: usize, lengths: *const u64, servers: usize, secure_avic: bool, edition: u32) -> Pooled;
    pub fn snp_cpuid_pool_lookup(
        pages: *const u8,
        length: usize,
        lengths: *const u64,
        servers: usize,
        secure_avic: bool,
        edition: u32,
        leaf: u32,
        has_subleaf: bool,
        subleaf: u32,
        enforce_subleaf: bool,
    ) -> Found;
    pub fn snp_cpuid_write_pool_image(
        pages: *const u8,
        length: usize,
        lengths: *const u64,
        servers: usize,
        secure_avic: bool,
        edition: u32,
        out: *mut u8,
        room: usize,
    ) -> Written;
    pub fn snp_cpuid_write_topologies(out: *mut u8, room: usize) -> Written;
}
