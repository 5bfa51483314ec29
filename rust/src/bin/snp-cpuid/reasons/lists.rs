//! Why a list for KVM is refused: 10 to 12.

use super::Reason;
use crate::print::place as row_name;
use crate::standing::word;
use snp_cpuid::Refusal;

/// Why a list for KVM is refused: 10 to 12.
pub fn of_list(refusal: Refusal, list: &[u8]) -> Reason {
    match refusal {
        Refusal::ListLength if list.len() < 8 => Reason::new(format!("it has {} bytes", list.len()), "at least the 8 of a count and a zero word"),
        Refusal::ListLength => {
            let count = u64::from(word(list, 0));
            Reason::new(format!("it has {} bytes and counts {count} rows", list.len()), format!("{} bytes", 8 + 40 * count))
        }
        Refusal::ListRows => {
            let rows = list[8..].chunks_exact(40);
            let state = rows.clone().filter(|row| word(row, 0) == 0xD).count();
            let others = rows.len() - state;
            Reason::new(format!("{state} rows of leaf Dh and {others} of all others"), "at most 64 of each that a table reads")
        }
        Refusal::ListFields => Reason::new(fields(list), "flags 0 or 1, and zeros in the head's second word and in the last three words of a row"),
        _ => Reason::default(),
    }
}

/// The first word of a list that must be otherwise.
fn fields(list: &[u8]) -> String {
    let head = (word(list, 4) != 0).then(|| format!("the second word of its head is {:08X}", word(list, 4)));
    let wrong = |(number, row): (usize, &[u8])| {
        let padding = [28, 32, 36].into_iter().find(|at| word(row, *at) != 0);
        let what = match (word(row, 8) > 1, padding) {
            (true, _) => format!("has flags {:08X}", word(row, 8)),
            (false, Some(at)) => format!("has {:08X} where a zero word must stand", word(row, at)),
            (false, None) => return None,
        };
        Some(format!("row {number}, counted from 0, of leaf {} {what}", row_name(word(row, 0), None)))
    };
    head.or_else(|| list[8..].chunks_exact(40).enumerate().find_map(wrong)).unwrap_or_default()
}
