//! What the machine that the command runs on reports: the CPUID instruction on one processor, and the list that KVM supports.

#[cfg(all(target_arch = "x86_64", target_os = "linux"))]
pub use here::{allowed, cpuid, stay_on, supported, xcr0};

/// The device that gives KVM's list.
pub const KVM: &str = "/dev/kvm";

#[cfg(all(target_arch = "x86_64", target_os = "linux"))]
mod here {
    use std::arch::asm;
    use std::arch::x86_64::__cpuid_count;
    use std::ffi::{c_int, c_ulong, c_void};
    use std::fs::File;
    use std::io;
    use std::os::fd::AsRawFd;

    unsafe extern "C" {
        fn sched_getaffinity(process: c_int, bytes: usize, mask: *mut c_void) -> c_int;
        fn sched_setaffinity(process: c_int, bytes: usize, mask: *const c_void) -> c_int;
        fn ioctl(file: c_int, request: c_ulong, argument: *mut c_void) -> c_int;
    }

    /// Processors as Linux has them: bit n of the mask is processor n.
    type Mask = [u64; 128];

    /// Goes to a processor and stays there: the rows of two processors must not be mixed.
    pub fn stay_on(processor: usize) -> io::Result<()> {
        let mut mask: Mask = [0; 128];
        *mask.get_mut(processor / 64).ok_or(io::ErrorKind::Unsupported)? = 1 << (processor % 64);
        // SAFETY: the pointer and length are those of the array, which it only reads
        match unsafe { sched_setaffinity(0, size_of_val(&mask), mask.as_ptr().cast()) } {
            0 => Ok(()),
            _ => Err(io::Error::last_os_error()),
        }
    }

    /// The processors that this thread may run on.
    pub fn allowed() -> io::Result<Vec<usize>> {
        let mut mask: Mask = [0; 128];
        // SAFETY: the pointer and length are those of the array, which it writes
        match unsafe { sched_getaffinity(0, size_of_val(&mask), mask.as_mut_ptr().cast()) } {
            0 => Ok((0..64 * mask.len()).filter(|processor| mask[processor / 64] >> (processor % 64) & 1 == 1).collect()),
            _ => Err(io::Error::last_os_error()),
        }
    }

    /// XCR0 of this processor; its value after reset where the operating system has not switched XSAVE on, since nobody can read it then.
    pub fn xcr0() -> u64 {
        if cpuid(1, 0)[2] >> 27 & 1 == 0 {
            return 1;
        }
        let (low, high): (u32, u32);
        // SAFETY: OSXSAVE is on, so that the instruction is there, and register 0 is XCR0
        unsafe { asm!("xgetbv", in("ecx") 0, out("eax") low, out("edx") high, options(nomem, nostack, preserves_flags)) };
        u64::from(high) << 32 | u64::from(low)
    }

    /// EAX, EBX, ECX and EDX.
    pub fn cpuid(leaf: u32, subleaf: u32) -> [u32; 4] {
        // SAFETY: every x86-64 processor has the instruction
        #[allow(unused_unsafe)]
        let result = unsafe { __cpuid_count(leaf, subleaf) };
        [result.eax, result.ebx, result.ecx, result.edx]
    }

    /// KVM_GET_SUPPORTED_CPUID: _IOWR(0xAE, 0x05, struct kvm_cpuid2), whose rows the size leaves out.
    const GET_SUPPORTED_CPUID: c_ulong = 0xC008_AE05;

    /// E2BIG of Linux: there was room for fewer rows than KVM has.
    const TOO_MANY: i32 = 7;

    /// KVM's list as a struct kvm_cpuid2.
    pub fn supported() -> io::Result<Vec<u8>> {
        let kvm = File::options().read(true).write(true).open(super::KVM)?;
        let mut room = 128u32;
        loop {
            let mut list = vec![0u8; 8 + 40 * room as usize];
            list[..4].copy_from_slice(&room.to_le_bytes());
            // SAFETY: the list has room for the rows that its first word counts, and the call writes no more
            let answer = unsafe { ioctl(kvm.as_raw_fd(), GET_SUPPORTED_CPUID, list.as_mut_ptr().cast()) };
            let error = io::Error::last_os_error();
            match answer {
                0 => {
                    let rows = u32::from_le_bytes([list[0], list[1], list[2], list[3]]);
                    list.truncate(8 + 40 * rows as usize);
                    return Ok(list);
                }
                _ if error.raw_os_error() == Some(TOO_MANY) && room < 4096 => room *= 2,
                _ => return Err(error),
            }
        }
    }
}

#[cfg(not(all(target_arch = "x86_64", target_os = "linux")))]
mod elsewhere {
    use std::io;

    fn none<T>() -> io::Result<T> {
        Err(io::Error::new(io::ErrorKind::Unsupported, "this is no x86-64 machine that runs Linux"))
    }

    pub fn stay_on(_processor: usize) -> io::Result<()> {
        none()
    }

    pub fn allowed() -> io::Result<Vec<usize>> {
        none()
    }

    pub fn xcr0() -> u64 {
        1
    }

    pub fn cpuid(_leaf: u32, _subleaf: u32) -> [u32; 4] {
        [0; 4]
    }

    pub fn supported() -> io::Result<Vec<u8>> {
        none()
    }
}

#[cfg(not(all(target_arch = "x86_64", target_os = "linux")))]
pub use elsewhere::{allowed, cpuid, stay_on, supported, xcr0};
