//! What a caller chooses beside the pages.

/// The choices of every function that builds: the secure-AVIC bit, and the edition of the AVX rule.
///
/// Edition 1 is the rule of OpenHCL. Where D.0.EAX lacks bit 2, the YMM state that the AMD manual ties them to, each later edition also clears these
/// bits:
///
/// 2: F16C (1.ECX bit 29), XOP and FMA4 (80000001h.ECX bits 11 and 16)
///
/// Any other number is [`Refusal::UnknownEdition`](crate::Refusal::UnknownEdition), before every other refusal.
///
/// ```
/// use snp_cpuid::{Options, Refusal, build};
///
/// // a server without YMM state: D.0 is the first entry of page 1
/// let mut pages = std::fs::read("epyc-milan.pages").unwrap();
/// assert_eq!(pages[4096 + 16..][..8], [0xD, 0, 0, 0, 0, 0, 0, 0]);
/// pages[4096 + 16 + 24] = 3;
///
/// let f16c = |options| build(&pages, options).unwrap().row(1, None).unwrap().ecx >> 29 & 1;
/// assert_eq!(f16c(Options::new()), 1);
/// assert_eq!(f16c(Options::new().edition(2)), 0);
/// assert_eq!(f16c(Options::new().edition(2).secure_avic(true)), 0);
///
/// assert_eq!(build(&pages, Options::new().edition(3)), Err(Refusal::UnknownEdition));
/// ```
#[derive(Clone, Copy, Debug, PartialEq, Eq, Hash)]
#[non_exhaustive]
pub struct Options {
    /// whether the mask of 8000001Fh.EAX has the secure-AVIC bit
    pub secure_avic: bool,
    /// the edition of the AVX rule
    pub edition: u32,
}

impl Options {
    /// Secure AVIC off, and edition 1.
    pub const fn new() -> Options {
        Options { secure_avic: false, edition: 1 }
    }

    /// With the secure-AVIC bit, or without it.
    #[must_use]
    pub const fn secure_avic(self, secure_avic: bool) -> Options {
        Options { secure_avic, ..self }
    }

    /// Under this edition of the AVX rule.
    #[must_use]
    pub const fn edition(self, edition: u32) -> Options {
        Options { edition, ..self }
    }
}

impl Default for Options {
    fn default() -> Options {
        Options::new()
    }
}
