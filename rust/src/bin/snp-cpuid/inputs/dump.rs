//! The text of Debian's `cpuid -r`, and of InstLatx64.

use super::Rows;
use super::text::{eight, is_decimal, quoted};
use crate::numbers::{digits, prefixed};
use crate::pages::Entry;

enum Line {
    Row(Entry),
    Cpu,
    /// a section of something else
    Other,
    Empty,
}

/// Whether a line is a row of such a text.
pub fn is_row(line: &str) -> bool {
    row(line).is_some()
}

/// The rows of the first CPU, and how many CPUs there are.
pub(super) fn rows(bytes: &[u8]) -> Result<Rows, String> {
    let mut dump = Rows { rows: vec![], cpus: 0 };
    let mut other = false;
    for (index, line) in bytes.split(|byte| *byte == b'\n').enumerate() {
        let text = String::from_utf8_lossy(line);
        // only a section's heading ends another
        if other && section(text.trim()).is_none() {
            continue;
        }
        let line = line_of(&text);
        other = matches!(line, Some(Line::Other));
        match line {
            Some(Line::Row(row)) => {
                // rows over the first heading are those of a CPU too
                dump.cpus = dump.cpus.max(1);
                if dump.cpus == 1 {
                    dump.rows.push(row);
                }
            }
            Some(Line::Cpu) => dump.cpus += 1,
            Some(Line::Other | Line::Empty) => {}
            None => return Err(format!("line {} is no CPUID row and no heading: {}", index + 1, quoted(&text))),
        }
    }
    if dump.rows.is_empty() {
        return Err(if bytes.is_empty() { "is empty, where a dump of CPUID rows is wanted" } else { "has no CPUID row of a first CPU" }.into());
    }
    Ok(dump)
}

/// The rows of each CPU.
pub fn by_cpu(text: &[u8]) -> Result<Vec<Vec<Entry>>, String> {
    let lines: Vec<&[u8]> = text.split(|byte| *byte == b'\n').collect();
    let is_heading = |line: &&[u8]| matches!(line_of(&String::from_utf8_lossy(line)), Some(Line::Cpu));
    let mut starts: Vec<usize> = (0..lines.len()).filter(|line| is_heading(&lines[*line])).collect();
    if starts.is_empty() {
        starts.push(0);
    }
    let end = |cpu: usize| starts.get(cpu + 1).copied().unwrap_or(lines.len());
    // empty lines in front, so that a message has the number of its line in the file
    let part = |cpu: usize| [vec![&b""[..]; starts[cpu]], lines[starts[cpu]..end(cpu)].to_vec()].concat().join(&b'\n');
    (0..starts.len()).map(|cpu| rows(&part(cpu)).map(|dump| dump.rows)).collect()
}

fn line_of(line: &str) -> Option<Line> {
    let line = line.trim();
    if line.is_empty() {
        Some(Line::Empty)
    } else if heading(line) {
        Some(Line::Cpu)
    } else {
        section(line).or_else(|| row(line).map(Line::Row))
    }
}

fn row(line: &str) -> Option<Entry> {
    debian_row(line).or_else(|| dashed_row(line))
}

/// `CPU 0:` or `CPU:`.
fn heading(line: &str) -> bool {
    let rest = line.strip_prefix("CPU").and_then(|rest| rest.strip_suffix(':'));
    rest.is_some_and(|rest| rest.is_empty() || rest.strip_prefix(' ').is_some_and(is_decimal))
}

/// `------[ Logical CPU #0 ]------` or `------[ CPUID Registers / Logical CPU #0 ]------`; any other title heads a section of something else.
fn section(line: &str) -> Option<Line> {
    let title = line.strip_prefix("------[ ").and_then(|rest| rest.strip_suffix(" ]------"))?;
    let number = title.strip_prefix("CPUID Registers / ").unwrap_or(title).strip_prefix("Logical CPU #");
    Some(if number.is_some_and(is_decimal) { Line::Cpu } else { Line::Other })
}

/// `0x0000000d 0x01: eax=0x0000000f ebx=0x00000340 ecx=0x00001800 edx=0x00000000`; older versions have no subleaf.
fn debian_row(line: &str) -> Option<Entry> {
    let (place, results) = line.split_once(':')?;
    let mut numbers = place.split_whitespace().map(prefixed);
    let leaf = numbers.next()??;
    let subleaf = numbers.next().unwrap_or(Some(0))?;
    let mut parts = results.split_whitespace();
    let mut register = |name| prefixed(parts.next()?.strip_prefix(name)?);
    let registers = [register("eax=")?, register("ebx=")?, register("ecx=")?, register("edx=")?];
    (numbers.next().is_none() && parts.next().is_none()).then_some(Entry { leaf, subleaf, registers })
}

/// `CPUID 0000000D: 0000000F-00000340-00001800-00000000 [SL 01]`; a leaf without subleaves has no bracket, or its text in one.
fn dashed_row(line: &str) -> Option<Entry> {
    let (leaf, rest) = line.strip_prefix("CPUID ")?.split_once(": ")?;
    let (results, bracket) = match rest.split_once(" [") {
        None => (rest, ""),
        Some((results, bracket)) => (results, bracket.strip_suffix(']')?),
    };
    let subleaf = match bracket.strip_prefix("SL") {
        None => 0,
        Some(number) => number.strip_prefix(' ').and_then(digits)?,
    };
    let mut parts = results.split('-');
    let mut register = || parts.next().and_then(eight);
    let registers = [register()?, register()?, register()?, register()?];
    parts.next().is_none().then_some(Entry { leaf: eight(leaf)?, subleaf, registers })
}
