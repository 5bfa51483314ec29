//! The lines of a Linux guest that was started with sev=debug, anywhere in its log: its whole CPUID page, entry by entry.
//!
//! `SEV: count=38 reserved=0x0 reserved2=0x0`, then for each place
//! `SEV: index=  1 fn=0x00000001 subfn=0x00000000: eax=0x.. ebx=0x.. ecx=0x.. edx=0x.. xcr0_in=0x.. xss_in=0x.. reserved=0x..`
//! (arch/x86/coco/sev/core.c, `dump_cpuid_table`).

use super::text;
use crate::numbers::{decimal, wide};
use crate::pages::PAGE_ENTRIES;
use crate::standing::start;
use snp_cpuid::PAGE_BYTES;

/// What was printed of one page: its count, and entries by their place.
#[derive(Default)]
struct Printed {
    count: Option<u32>,
    entries: Vec<(usize, [u8; 48])>,
}

enum Line {
    Count(u32),
    Entry(usize, [u8; 48]),
}

/// Whether a line is one of an entry.
pub fn is_entry(line: &str) -> bool {
    matches!(read(line), Some(Line::Entry(..)))
}

/// The page that the lines give, and what a reader should know of it. A page begins with its count, or where the index does not rise; of several,
/// as a log of several starts has them, the first is taken.
pub fn page(bytes: &[u8]) -> Result<(Vec<u8>, Option<String>), String> {
    let mut pages: Vec<Printed> = vec![];
    for line in text::found(bytes, read) {
        match line {
            Line::Count(count) => pages.push(Printed { count: Some(count), entries: vec![] }),
            Line::Entry(index, entry) => {
                let rises = pages.last().is_some_and(|page| page.entries.last().is_none_or(|(last, _)| *last < index));
                if !rises {
                    pages.push(Printed::default());
                }
                pages.last_mut().expect("there is a page").entries.push((index, entry));
            }
        }
    }
    pages.retain(|page| !page.entries.is_empty());
    let note = (pages.len() > 1).then(|| format!("it has the tables of {} starts, the first is taken", pages.len()));
    let Printed { count, entries } = pages.into_iter().next().ok_or("has no entry of a CPUID table")?;
    Ok((laid(count, &entries)?, note))
}

/// The bytes of a page. Where its count was not printed, all entries count up to the last that is not empty.
fn laid(count: Option<u32>, entries: &[(usize, [u8; 48])]) -> Result<Vec<u8>, String> {
    let used = entries.iter().filter(|(_, entry)| entry != &[0; 48]).map(|(index, _)| index + 1).max().unwrap_or(0);
    let count = count.unwrap_or(used as u32);
    let there = entries.iter().filter(|(index, _)| (*index as u32) < count).count();
    if there < (count as usize).min(PAGE_ENTRIES) {
        return Err(format!("has {there} of the {count} entries that its CPUID table counts"));
    }
    let mut page = vec![0; PAGE_BYTES];
    page[..4].copy_from_slice(&count.to_le_bytes());
    for (index, entry) in entries {
        page[start(*index)..start(*index) + 48].copy_from_slice(entry);
    }
    Ok(page)
}

/// What stands behind `SEV: ` in a line.
fn read(line: &str) -> Option<Line> {
    let (_, line) = line.split_once("SEV: ")?;
    if let Some(rest) = line.strip_prefix("count=") {
        return decimal(rest.split(' ').next()?).map(Line::Count);
    }
    let (index, rest) = line.strip_prefix("index=")?.trim_start().split_once(' ')?;
    let index = decimal(index).filter(|index| (*index as usize) < PAGE_ENTRIES)? as usize;
    let mut parts = rest.split_whitespace();
    let mut number = |name: &str| wide(parts.next()?.trim_end_matches(':').strip_prefix(name)?.strip_prefix("0x")?);
    let mut narrow = |name: &str| number(name).and_then(|number| u32::try_from(number).ok());
    let place = [narrow("fn=")?, narrow("subfn=")?];
    let results = [narrow("eax=")?, narrow("ebx=")?, narrow("ecx=")?, narrow("edx=")?];
    let states = [number("xcr0_in=")?, number("xss_in=")?];
    let reserved = number("reserved=")?;
    let bytes: Vec<u8> = place.map(u32::to_le_bytes).concat().into_iter().chain(states.map(u64::to_le_bytes).concat()).collect();
    let bytes: Vec<u8> = bytes.into_iter().chain(results.map(u32::to_le_bytes).concat()).chain(reserved.to_le_bytes()).collect();
    Some(Line::Entry(index, bytes.try_into().ok()?))
}
