//! The text of libcpuid's `cpuid_tool --save`: rows `basic_cpuid[13]=000000e7 00000980 00000980 00000000`, by arrays of leaves.

use super::Rows;
use super::text::{eight, is_decimal, quoted};
use crate::numbers::decimal;
use crate::pages::Entry;

/// The arrays whose rows are read. The first two count leaves, the others the subleaves of a leaf; libcpuid gives leaf Bh and 8000001Dh twice.
const ARRAYS: [(&str, u32, bool); 4] =
    [("basic_cpuid", 0, true), ("ext_cpuid", 0x8000_0000, true), ("intel_fn11", 0xB, false), ("amd_fn8000001dh", 0x8000_001D, false)];

/// Whether a line is a row of such a text.
pub fn is_row(line: &str) -> bool {
    row(line).is_some()
}

/// The rows of the first CPU, and how many CPUs there are. A leaf above the highest that rows 0 and 80000000 report is left out: libcpuid asks for it
/// all the same.
pub(super) fn rows(bytes: &[u8]) -> Result<Rows, String> {
    let mut found = Rows { rows: vec![], cpus: 0 };
    for (index, line) in bytes.split(|byte| *byte == b'\n').enumerate() {
        let text = String::from_utf8_lossy(line);
        match text.trim() {
            "" => {}
            line if line.starts_with("version=") => {}
            line if heading(line) => found.cpus += 1,
            line => {
                let row = row(line).ok_or_else(|| format!("line {} is no row of libcpuid's and no heading: {}", index + 1, quoted(line)))?;
                // rows over the first heading, as older versions write them, are those of a CPU too
                found.cpus = found.cpus.max(1);
                if found.cpus == 1 {
                    found.rows.extend(row.entry());
                }
            }
        }
    }
    let last = |leaf: u32| found.rows.iter().find(|row| row.leaf == leaf & 0x8000_0000).map_or(u32::MAX, |row| row.registers[0]);
    let there: Vec<bool> = found.rows.iter().map(|row| row.leaf <= last(row.leaf)).collect();
    let mut there = there.into_iter();
    found.rows.retain(|_| there.next() == Some(true));
    Ok(found)
}

struct Row<'a> {
    array: &'a str,
    index: u32,
    registers: [u32; 4],
}

impl Row<'_> {
    /// Its entry; none where it is of an array that is not read.
    fn entry(&self) -> Option<Entry> {
        let (_, leaf, counts_leaves) = ARRAYS.into_iter().find(|(name, ..)| *name == self.array)?;
        let (leaf, subleaf) = if counts_leaves { (leaf + self.index, 0) } else { (leaf, self.index) };
        Some(Entry { leaf, subleaf, registers: self.registers })
    }
}

fn row(line: &str) -> Option<Row<'_>> {
    let (array, rest) = line.split_once('[')?;
    let (index, values) = rest.split_once("]=")?;
    let index = Some(index).filter(|index| is_decimal(index)).and_then(decimal).filter(|index| *index < 1 << 16)?;
    let mut parts = values.split(' ');
    let mut register = || parts.next().and_then(eight);
    let registers = [register()?, register()?, register()?, register()?];
    let named = !array.is_empty() && array.bytes().all(|byte| byte.is_ascii_alphanumeric() || byte == b'_');
    (named && parts.next().is_none()).then_some(Row { array, index, registers })
}

/// `_________________ Logical CPU #0 _________________`.
fn heading(line: &str) -> bool {
    line.trim_matches('_').trim().strip_prefix("Logical CPU #").is_some_and(is_decimal)
}
