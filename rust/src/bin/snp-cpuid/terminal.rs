//! The width of the terminal that standard output or standard error goes to.

/// The columns of the terminal at a file descriptor; none where it is no terminal, or does not say.
#[cfg(all(target_arch = "x86_64", target_os = "linux"))]
pub fn columns(descriptor: i32) -> Option<usize> {
    use std::ffi::{c_int, c_ulong, c_void};

    unsafe extern "C" {
        fn ioctl(file: c_int, request: c_ulong, argument: *mut c_void) -> c_int;
    }

    /// TIOCGWINSZ of Linux: rows, columns, and the same in pixels.
    const GET_SIZE: c_ulong = 0x5413;
    let mut size = [0u16; 4];
    // SAFETY: the call writes four numbers of 16 bits, for which there is room
    let answer = unsafe { ioctl(descriptor, GET_SIZE, size.as_mut_ptr().cast()) };
    (answer == 0 && size[1] > 0).then_some(usize::from(size[1]))
}

#[cfg(not(all(target_arch = "x86_64", target_os = "linux")))]
pub fn columns(_descriptor: i32) -> Option<usize> {
    None
}
