//! Two servers compared.

use crate::answer::Answer;
use crate::{Details, Refusal, exports};
use core::fmt;

/// Whether the pages of server B have at least what server A's table has, or the first thing in the way.
#[derive(Clone, Copy, Debug, PartialEq, Eq, Hash)]
#[must_use = "it says whether the guest may move"]
#[non_exhaustive]
pub enum Comparison {
    /// Yes, B's pages have it all. Building B then gives a table with every row of A's, at least A's bits in every feature register, a save area no
    /// smaller and all else equal, to which a guest of A may move; or it refuses B by 3, for a subleaf of leaf Dh that B's own further state needs,
    /// or by 5.
    Rises,
    /// A itself gives no table, so it has no guest.
    RefusedA(Refusal),
    /// B's length or a count of its pages is not lawful, or a reserved byte of an entry is not zero: by 1, 2 or 17.
    UnlawfulB(Refusal),
    /// A's table has a row for which B has no entry.
    NoEntry {
        /// the leaf
        leaf: u32,
        /// the subleaf; none for a leaf without
        subleaf: Option<u32>,
    },
    /// B's entry lacks a bit of A's in a feature register, or differs in another.
    Differs {
        /// the leaf
        leaf: u32,
        /// the subleaf; none for a leaf without
        subleaf: Option<u32>,
        /// the first register of the row that fails
        register: Register,
    },
}

/// Whether one table is at least another, or the first thing in the way: by rising leaf, subleaf and register.
#[derive(Clone, Copy, Debug, PartialEq, Eq, Hash)]
#[must_use = "it says whether the guest may move"]
#[non_exhaustive]
pub enum TableComparison {
    /// It has every row of the other, at least its feature bits, a save area no smaller and all else equal, and beyond it only subleaves of leaf Dh
    /// for further extended states.
    Rises,
    /// It has no row here, and the other has.
    NoRow {
        /// the leaf
        leaf: u32,
        /// the subleaf; none for a leaf without
        subleaf: Option<u32>,
    },
    /// It lacks a feature bit of the other's, has a smaller save area (D.0.ECX), or differs where it must be equal.
    Differs {
        /// the leaf
        leaf: u32,
        /// the subleaf; none for a leaf without
        subleaf: Option<u32>,
        /// the first register of the row that fails
        register: Register,
    },
    /// It has a row here that the other has not, and that is no further extended state.
    Beyond {
        /// the leaf
        leaf: u32,
        /// the subleaf; none for a leaf without
        subleaf: Option<u32>,
    },
    /// Its combined mask lacks a bit of the other's. This is never so of a table that was built, pooled or read.
    MaskLacks,
}

/// One of the four registers of a CPUID result. There are no others, so a match may name all four.
#[derive(Clone, Copy, Debug, PartialEq, Eq, Hash)]
pub enum Register {
    /// EAX
    Eax,
    /// EBX
    Ebx,
    /// ECX
    Ecx,
    /// EDX
    Edx,
}

impl Comparison {
    /// The comparison that an answer's plain numbers stand for.
    pub(crate) fn from_numbers(c: exports::Compared) -> Comparison {
        let refusal = || c.accepted().expect_err("answers 1 and 2 carry a refusal");
        let Details { leaf, subleaf, .. } = c.details();
        match c.answer {
            0 => Comparison::Rises,
            1 => Comparison::RefusedA(refusal()),
            2 => Comparison::UnlawfulB(refusal()),
            3 => Comparison::NoEntry { leaf, subleaf },
            4 => Comparison::Differs { leaf, subleaf, register: Register::from_index(c.register_index) },
            // the library is proved to give no other
            other => unreachable!("answer {other}"),
        }
    }
}

impl TableComparison {
    /// The comparison that an answer's plain numbers stand for.
    pub(crate) fn from_numbers(c: exports::TablesCompared) -> TableComparison {
        let (leaf, subleaf) = (c.leaf, (c.has_subleaf != 0).then_some(c.subleaf));
        match c.answer {
            0 => TableComparison::Rises,
            1 => TableComparison::NoRow { leaf, subleaf },
            2 => TableComparison::Differs { leaf, subleaf, register: Register::from_index(c.register_index) },
            3 => TableComparison::Beyond { leaf, subleaf },
            4 => TableComparison::MaskLacks,
            // the library is proved to give no other
            other => unreachable!("answer {other}"),
        }
    }
}

impl Register {
    /// Its index among EAX, EBX, ECX and EDX, from 0.
    ///
    /// ```
    /// use snp_cpuid::{CpuidResult, Register};
    ///
    /// let result = CpuidResult { eax: 1, ebx: 2, ecx: 3, edx: 4 };
    /// assert_eq!(result.registers()[Register::Ecx.index()], 3);
    /// ```
    #[must_use]
    pub const fn index(self) -> usize {
        self as usize
    }

    /// The register of an index from 0 to 3.
    pub(crate) fn from_index(index: u32) -> Register {
        match index {
            0 => Register::Eax,
            1 => Register::Ebx,
            2 => Register::Ecx,
            3 => Register::Edx,
            // the library is proved to give no other
            other => unreachable!("register {other}"),
        }
    }
}

impl fmt::Display for Comparison {
    fn fmt(&self, f: &mut fmt::Formatter<'_>) -> fmt::Result {
        match self {
            Comparison::Rises => write!(f, "B has at least what A has"),
            Comparison::RefusedA(why) => write!(f, "A is refused: {why}"),
            Comparison::UnlawfulB(why) => write!(f, "B's pages cannot be read: {why}"),
            Comparison::NoEntry { leaf, subleaf } => write!(f, "B has no entry for {}, which A's table has", Place(*leaf, *subleaf)),
            Comparison::Differs { leaf, subleaf, register } => {
                write!(f, "B's {}.{register} lacks a feature bit of A's, or differs from A's where it must be equal", Place(*leaf, *subleaf))
            }
        }
    }
}

impl fmt::Display for TableComparison {
    fn fmt(&self, f: &mut fmt::Formatter<'_>) -> fmt::Result {
        match self {
            TableComparison::Rises => write!(f, "the table is at least the other"),
            TableComparison::NoRow { leaf, subleaf } => write!(f, "the table has no row for {}", Place(*leaf, *subleaf)),
            TableComparison::Differs { leaf, subleaf, register } => {
                write!(f, "{}.{register} lacks a feature bit, is a smaller save area, or differs where it must be equal", Place(*leaf, *subleaf))
            }
            TableComparison::Beyond { leaf, subleaf } => write!(f, "the table has a row for {}, which the other lacks", Place(*leaf, *subleaf)),
            TableComparison::MaskLacks => write!(f, "the table's combined mask lacks an extended state"),
        }
    }
}

impl fmt::Display for Register {
    fn fmt(&self, f: &mut fmt::Formatter<'_>) -> fmt::Result {
        f.write_str(match self {
            Register::Eax => "EAX",
            Register::Ebx => "EBX",
            Register::Ecx => "ECX",
            Register::Edx => "EDX",
        })
    }
}

/// A leaf and subleaf as the manuals write them.
struct Place(u32, Option<u32>);

impl fmt::Display for Place {
    fn fmt(&self, f: &mut fmt::Formatter<'_>) -> fmt::Result {
        match self {
            Place(leaf, None) => write!(f, "{leaf:X}h"),
            Place(leaf, Some(subleaf)) => write!(f, "{leaf:X}h subleaf {subleaf}"),
        }
    }
}
