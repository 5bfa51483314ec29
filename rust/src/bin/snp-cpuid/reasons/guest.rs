//! Why a guest, an edition or a carried table is refused: 13 to 16.

use super::Reason;
use crate::components;
use snp_cpuid::{Refusal, Table};

/// Why an edition of the AVX rule is refused.
pub fn of_edition(edition: u32) -> Reason {
    Reason::new(format!("edition {edition} was asked for"), "--edition 1 or --edition 2")
}

/// Why a guest is refused: 13 and 14, of a processor with these states.
pub fn of_guest(refusal: Refusal, table: &Table, xcr0: u64, xss: u64) -> Reason {
    let row = |subleaf| table.row(0xD, Some(subleaf)).unwrap_or_default();
    // the table's D.1.ECX is its XSS: building clears it where XSAVEC or XSAVES is missing
    let (own_xcr0, own_xss) = (u64::from(row(0).eax), u64::from(row(1).ecx));
    match refusal {
        Refusal::StateBeyondTable => {
            let beyond = |name: &str, given: u64, own: u64, of: &str| {
                let bits = given & !own;
                (bits != 0).then(|| format!("{name} {given:X} has {} beyond {of} {own:X}", bits_told(bits)))
            };
            let lacks = (xcr0 & 1 == 0).then(|| format!("XCR0 {xcr0:X} lacks bit 0 (x87)"));
            let parts = [lacks, beyond("XCR0", xcr0, own_xcr0, "D.0.EAX"), beyond("XSS", xss, own_xss, "the table's XSS")];
            let change = format!("XCR0 {:X} and XSS {:X}", xcr0 & own_xcr0 | 1, xss & own_xss);
            Reason::new(parts.into_iter().flatten().collect::<Vec<_>>().join("; "), change)
        }
        Refusal::CompactSizeTooLarge => compacted(table, xcr0 | xss),
        _ => Reason::default(),
    }
}

/// The compacted save area of some states: 576 bytes, then each state, at a multiple of 64 where bit 1 of its ECX says so.
fn compacted(table: &Table, states: u64) -> Reason {
    let (mut end, mut told) = (576u64, vec![]);
    for row in table.rows().filter(|row| row.leaf == 0xD && row.subleaf.is_some_and(|k| k >= 2 && states >> k & 1 == 1)) {
        let start = if row.result.ecx & 2 == 0 { end } else { end.next_multiple_of(64) };
        end = start + u64::from(row.result.eax);
        told.push(format!("D.{:X} from {start:X} to {end:X}", row.subleaf.unwrap_or(0)));
    }
    Reason::new(format!("after the 240 bytes of x87 and SSE state stand {}, over FFFFFFFF", told.join(", ")), "fewer states on, or smaller ones")
}

/// Why a table is not taken back to an edition before the one that it runs under.
pub fn of_edition_back(from: u32) -> Reason {
    Reason::new(String::new(), format!("--to {from}, which changes nothing"))
}

/// Bits by number and, where they are states, by name.
fn bits_told(bits: u64) -> String {
    let told = (0..64).filter(|bit| bits >> bit & 1 == 1).map(|bit| match components::name(bit) {
        Some(name) => format!("{bit} ({name})"),
        None => bit.to_string(),
    });
    let told: Vec<String> = told.collect();
    format!("bit{} {}", if told.len() == 1 { "" } else { "s" }, told.join(", "))
}
