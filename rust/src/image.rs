//! A table as bytes, and read back from them; and as a list for KVM.

use crate::answer::Answer;
use crate::table::Made;
use crate::{PLACES, Refusal, Table, exports};
use core::error::Error;
use core::fmt;
use core::ops::Deref;

/// The most bytes that the image of a table of any content can have: one that is built or pooled has at most
/// [`MOST_IMAGE_BYTES`](crate::MOST_IMAGE_BYTES).
pub const ANY_IMAGE_BYTES: usize = 17 * 21 + 71 * 25;

/// The most bytes that the list for KVM of a table of any content can have.
pub const ANY_KVM_BYTES: usize = 8 + 40 * PLACES;

/// A table's image: for each row byte 1, leaf, EAX, EBX, ECX, EDX, or byte 2, leaf, subleaf and the four, each number 4 bytes little-endian. It is a
/// slice of bytes in all that it does.
#[derive(Clone)]
pub struct Image {
    bytes: [u8; ANY_IMAGE_BYTES],
    length: usize,
}

impl Deref for Image {
    type Target = [u8];

    fn deref(&self) -> &[u8] {
        &self.bytes[..self.length]
    }
}

impl AsRef<[u8]> for Image {
    fn as_ref(&self) -> &[u8] {
        self
    }
}

impl<T: AsRef<[u8]> + ?Sized> PartialEq<T> for Image {
    fn eq(&self, other: &T) -> bool {
        **self == *other.as_ref()
    }
}

impl Eq for Image {}

impl fmt::Debug for Image {
    fn fmt(&self, f: &mut fmt::Formatter<'_>) -> fmt::Result {
        (**self).fmt(f)
    }
}

/// Bytes that are no table's image.
#[derive(Clone, Copy, Debug, PartialEq, Eq, Hash)]
pub struct NotAnImage;

impl Table {
    /// Its image. It does not say where the rows came from.
    #[must_use]
    pub fn image(&self) -> Image {
        let mut image = Image { bytes: [0; ANY_IMAGE_BYTES], length: 0 };
        image.length = self.write_image(&mut image.bytes).expect("there is room for 88 rows");
        image
    }

    /// Writes its image to the front of `out` and gives its length. Where `out` is shorter it is as it was, and the answer is
    /// [`Refusal::BufferTooShort`]; bytes beyond the image are as they were. The image of a table without rows has no bytes.
    ///
    /// # Errors
    ///
    /// [`Refusal::BufferTooShort`]; `out` is then as it was.
    pub fn write_image(&self, out: &mut [u8]) -> Result<usize, Refusal> {
        let (registers, origins) = self.arrays();
        // SAFETY: the two arrays are the table's own and only read; the function writes within the slice whose pointer and length come last
        let written = unsafe { exports::snp_cpuid_table_write_image(registers, origins, out.as_mut_ptr(), out.len()) };
        written.accepted().map(|written| written.length as usize)
    }

    /// Writes it as `struct kvm_cpuid2` to the front of `out` and gives its length, as [`write_kvm`](crate::write_kvm) does of pages that
    /// are accepted. Where `out` is shorter it is as it was, and the answer is [`Refusal::BufferTooShort`]; bytes beyond the list are as they were.
    /// The list of a table without rows has 8 bytes.
    ///
    /// # Errors
    ///
    /// [`Refusal::BufferTooShort`]; `out` is then as it was.
    pub fn write_kvm(&self, out: &mut [u8]) -> Result<usize, Refusal> {
        let (registers, origins) = self.arrays();
        // SAFETY: the two arrays are the table's own and only read; the function writes within the slice whose pointer and length come last
        let written = unsafe { exports::snp_cpuid_table_write_kvm(registers, origins, out.as_mut_ptr(), out.len()) };
        written.accepted().map(|written| written.length as usize)
    }
}

/// The table of an image, as [`Table::image`] gives it and [`write_image`](crate::write_image) writes it. The library decides what is an image. An
/// image does not say where its rows came from: all have [`Origin::Unknown`](crate::Origin::Unknown).
///
/// ```
/// use snp_cpuid::{NotAnImage, Options, Origin, Table};
///
/// let pages = std::fs::read("epyc-milan.pages").unwrap();
/// let built = Table::build(&pages, Options::new()).unwrap();
/// let image = built.image();
/// let read = Table::try_from(&image[..]).unwrap();
/// assert_eq!(read, built);
/// assert!(read.rows().all(|row| row.origin == Origin::Unknown));
///
/// assert_eq!(Table::try_from(&image[1..]), Err(NotAnImage));
/// assert_eq!(Table::try_from(&pages[..]), Err(NotAnImage));
/// ```
impl TryFrom<&[u8]> for Table {
    type Error = NotAnImage;

    fn try_from(image: &[u8]) -> Result<Table, NotAnImage> {
        let mut made = Made::new();
        let (registers, origins) = made.arrays();
        // SAFETY: the first pointer and length are those of a slice, which the function only reads; it writes the whole of the two arrays
        unsafe {
            let read = exports::snp_cpuid_table_read_image(image.as_ptr(), image.len(), registers, origins);
            if read.is_image == 1 { Ok(made.table()) } else { Err(NotAnImage) }
        }
    }
}

impl fmt::Display for NotAnImage {
    fn fmt(&self, f: &mut fmt::Formatter<'_>) -> fmt::Result {
        f.write_str("the bytes are no table's image")
    }
}

impl Error for NotAnImage {}
