//! One table for a pool of servers.

#[cfg(feature = "std")]
use crate::Found;
use crate::answer::Answer;
use crate::table::Made;
use crate::{Options, Refusal, Table, exports};
use core::error::Error;
use core::fmt;

/// The most servers that a pool can have; the fewest are two.
pub const MOST_SERVERS: usize = 16;

/// Why servers have no table together.
#[derive(Clone, Copy, Debug, PartialEq, Eq, Hash)]
pub struct NotPooled {
    /// the refusal
    pub refusal: Refusal,
    /// the server, from 0, whose own it is, as [`build`](crate::build) would give it; none for [`Refusal::PoolSets`] and [`Refusal::PoolDiffers`],
    /// which are the pool's
    pub server: Option<usize>,
}

/// The table that a guest keeps on every server of a pool: of the page sets of 2 to [`MOST_SERVERS`](crate::MOST_SERVERS), under the same options.
///
/// A feature bit, an extended state or a row is there exactly where all servers' tables have it; D.0.ECX, the size of the save area, is that of the
/// states that are left; every other register is the first server's, and so is where the rows came from.
///
/// [`Refusal::PoolSets`] comes first; then the first refusal of a server, in their order; then [`Refusal::PoolDiffers`], where the servers differ, in
/// a row that all their tables have, elsewhere than in feature bits or D.0.ECX.
///
/// [`Table::pool`] is the same without the copy that puts the page sets end to end.
///
/// # Errors
///
/// [`NotPooled`]: the refusal of the pool, or of one of its servers.
///
/// ```
/// use snp_cpuid::{NotPooled, Options, Refusal, build, pool};
///
/// let a = std::fs::read("epyc-milan.pages").unwrap();
/// // a server without FMA, bit 12 of 1.ECX: leaf 1 is the second entry of page 0
/// let mut b = a.clone();
/// assert_eq!(b[64..68], 1u32.to_le_bytes());
/// b[64 + 32 + 1] &= !0x10;
/// let table = pool(&[&a, &b, &a], Options::new()).unwrap();
/// assert_eq!(table, build(&b, Options::new()).unwrap());
///
/// // another model, bits 4 to 7 of 1.EAX, is no feature
/// b[64 + 24] ^= 0x20;
/// assert_eq!(pool(&[&a, &b], Options::new()), Err(NotPooled { refusal: Refusal::PoolDiffers, server: None }));
/// // the third server has no pages
/// let refused = pool(&[&a[..], &a, &[]], Options::new()).unwrap_err();
/// assert_eq!(refused, NotPooled { refusal: Refusal::PagesLength, server: Some(2) });
/// assert_eq!(refused.to_string(), "server 2: the CPUID pages must be one or more whole pages of 4,096 bytes");
/// // one server is no pool
/// assert_eq!(pool(&[&a], Options::new()).unwrap_err().refusal, Refusal::PoolSets);
/// ```
#[cfg(feature = "std")]
pub fn pool(sets: &[impl AsRef<[u8]>], options: Options) -> Result<Table, NotPooled> {
    let joined = Joined::of(sets);
    Table::pool(&joined.pages, &joined.lengths, options)
}

impl Table {
    /// The table of a pool, as `pool` gives it, of page sets that stand end to end in `pages`, with the bytes of each in `lengths`.
    ///
    /// # Errors
    ///
    /// [`NotPooled`]: the refusal of the pool, or of one of its servers.
    pub fn pool(pages: &[u8], lengths: &[u64], options: Options) -> Result<Table, NotPooled> {
        let Options { secure_avic, edition } = options;
        let mut made = Made::new();
        let (registers, origins) = made.arrays();
        let (length, servers) = (pages.len(), lengths.len());
        // SAFETY: the first pointers and lengths are those of slices, which the function only reads; it writes the whole of the two arrays
        let pooled =
            unsafe { exports::snp_cpuid_table_pool(pages.as_ptr(), length, lengths.as_ptr(), servers, secure_avic, edition, registers, origins) };
        match pooled.accepted() {
            // SAFETY: as above
            Ok(_) => Ok(unsafe { made.table() }),
            Err(refusal) => {
                let of_the_pool = matches!(refusal, Refusal::PoolSets | Refusal::PoolDiffers);
                Err(NotPooled { refusal, server: (!of_the_pool).then_some(pooled.server as usize) })
            }
        }
    }
}

/// Writes the image of the pool's table to the front of `out` and gives its length. Where it refuses, `out` is as it was; bytes beyond the image are
/// as they were. [`Refusal::BufferTooShort`] comes last.
///
/// # Errors
///
/// The refusal of the pool or of one of its servers, then [`Refusal::BufferTooShort`].
#[cfg(feature = "std")]
pub fn write_pool_image(sets: &[impl AsRef<[u8]>], options: Options, out: &mut [u8]) -> Result<usize, Refusal> {
    Joined::of(sets).write_image(options, out)
}

/// Pools and looks one row up, both in the library. [`Table::lookup`] gives the same and pools once.
///
/// ```
/// use snp_cpuid::{Options, Origin, pool_lookup};
///
/// // the same entries, but an empty page comes first, leaf Dh second, and all others last
/// let a = std::fs::read("epyc-milan.pages").unwrap();
/// let b = [&[0; 4096], &a[4096..], &a[..4096]].concat();
/// let origin = |sets: &[&[u8]]| pool_lookup(sets, Options::new(), 1, None, true).unwrap().origin;
/// assert_eq!(origin(&[&a, &b]), Origin::Entry { page: 0, entry: 1 });
/// assert_eq!(origin(&[&b, &a]), Origin::Entry { page: 2, entry: 1 });
/// ```
#[must_use]
#[cfg(feature = "std")]
pub fn pool_lookup(sets: &[impl AsRef<[u8]>], options: Options, leaf: u32, subleaf: Option<u32>, enforce_subleaf: bool) -> Option<Found> {
    Joined::of(sets).lookup(options, leaf, subleaf, enforce_subleaf)
}

/// Page sets as the library takes them: end to end, and their lengths.
#[cfg(feature = "std")]
struct Joined {
    pages: Vec<u8>,
    lengths: Vec<u64>,
}

#[cfg(feature = "std")]
impl Joined {
    fn of(sets: &[impl AsRef<[u8]>]) -> Joined {
        let sets = || sets.iter().map(AsRef::as_ref);
        Joined { pages: sets().flatten().copied().collect(), lengths: sets().map(|set| set.len() as u64).collect() }
    }

    fn slices(&self) -> (&[u8], &[u64]) {
        (&self.pages, &self.lengths)
    }

    fn write_image(&self, options: Options, out: &mut [u8]) -> Result<usize, Refusal> {
        let Options { secure_avic, edition } = options;
        let (pages, lengths) = self.slices();
        // SAFETY: the pointers and lengths are those of slices; the function reads the first two and writes within the last
        let written = unsafe {
            let (servers, room) = (lengths.len(), out.len());
            exports::snp_cpuid_write_pool_image(pages.as_ptr(), pages.len(), lengths.as_ptr(), servers, secure_avic, edition, out.as_mut_ptr(), room)
        };
        written.accepted().map(|written| written.length as usize)
    }

    fn lookup(&self, options: Options, leaf: u32, subleaf: Option<u32>, enforce_subleaf: bool) -> Option<Found> {
        let Options { secure_avic, edition } = options;
        let (named, subleaf) = (subleaf.is_some(), subleaf.unwrap_or(0));
        let (pages, lengths) = self.slices();
        // SAFETY: both pointers and lengths are those of slices, which the function only reads
        let found = unsafe {
            let (length, servers) = (pages.len(), lengths.len());
            let (pages, lengths) = (pages.as_ptr(), lengths.as_ptr());
            exports::snp_cpuid_pool_lookup(pages, length, lengths, servers, secure_avic, edition, leaf, named, subleaf, enforce_subleaf)
        };
        found.row()
    }
}

impl fmt::Display for NotPooled {
    fn fmt(&self, f: &mut fmt::Formatter<'_>) -> fmt::Result {
        match self.server {
            Some(server) => write!(f, "server {server}: {}", self.refusal),
            None => self.refusal.fmt(f),
        }
    }
}

impl Error for NotPooled {
    fn source(&self) -> Option<&(dyn Error + 'static)> {
        Some(&self.refusal)
    }
}
