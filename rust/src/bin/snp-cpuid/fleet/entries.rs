//! What the comparison of pages reads of a server: the first entries of its table's rows.

use crate::pages::{Entry, two_pages};
use crate::standing::{start, word};
use crate::words;
use snp_cpuid::{Origin, PAGE_BYTES, Row, Table};

/// The first entries of a table's rows, each as it stands. They decide over every comparison of this server with another, and of another with this one
/// where the other's table has no further row.
#[derive(PartialEq, Eq, Hash)]
pub struct Entries(Box<[Entry]>);

impl Entries {
    /// Those of pages: their table says where each stands. A row that the builder makes has no entry of its own, and stands for one.
    pub fn of(pages: &[u8], table: &Table) -> Entries {
        let entry = |row: Row| {
            let registers = match row.origin {
                Origin::Entry { page, entry } => [24, 28, 32, 36].map(|register| word(pages, page * PAGE_BYTES + start(entry) + register)),
                _ => words::registers(&row),
            };
            Entry { leaf: row.leaf, subleaf: row.subleaf.unwrap_or(0), registers }
        };
        Entries(table.rows().map(entry).collect())
    }

    /// Pages with these entries.
    pub fn pages(&self) -> Vec<u8> {
        two_pages(&self.0).expect("a table has at most 32 rows")
    }
}
