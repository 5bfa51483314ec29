//! Stand-in for zerocopy: the two traits by which snp.rs lays the page bytes over `HvPspCpuidPage`.

/// # Safety
/// All bytes zero must be a value of the type.
pub unsafe trait FromZeros: Sized {
    fn new_zeroed() -> Self {
        // SAFETY: what the implementer promises.
        unsafe { std::mem::zeroed() }
    }
}

/// # Safety
/// For a sized type: any bytes must be a value of it, and it must have no padding.
pub unsafe trait IntoBytes {
    fn as_mut_bytes(&mut self) -> &mut [u8] {
        let length = size_of_val(self);
        // SAFETY: the bytes are borrowed as long as the value is, and any bytes make a value.
        unsafe { std::slice::from_raw_parts_mut(std::ptr::from_mut(self).cast::<u8>(), length) }
    }
}

// SAFETY: an array of values without padding has none.
unsafe impl<T: IntoBytes> IntoBytes for [T] {}
