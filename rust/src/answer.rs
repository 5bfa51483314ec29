//! The plain numbers by which every exported function tells a refusal, read in one place.

use crate::exports::{Built, Compared, First, LineRead, Nearest, Pooled, Written};
use crate::{Details, Refusal};

/// An answer of an exported function that may be a refusal.
pub(crate) trait Answer: Copy {
    /// 0 where it is accepted, else the refusal's number.
    fn number(&self) -> u32;

    /// What it names beside the number.
    fn details(&self) -> Details;

    /// The answer where it is no refusal.
    #[inline]
    fn accepted(self) -> Result<Self, Refusal> {
        match self.number() {
            0 => Ok(self),
            number => Err(Refusal::of(number, self.details())),
        }
    }
}

/// Each of these structs has the fields number, leaf, has_subleaf, subleaf and s.
macro_rules! answers {
    ($($name:ident),*) => {
        $(impl Answer for $name {
            #[inline]
            fn number(&self) -> u32 {
                self.number
            }

            fn details(&self) -> Details {
                // s is cut from four bits, or was read from a line, which has eight
                Details { leaf: self.leaf, subleaf: (self.has_subleaf != 0).then_some(self.subleaf), s: self.s as u8 }
            }
        })*
    };
}

answers!(Built, Written, Compared, LineRead, First, Pooled, Nearest);
