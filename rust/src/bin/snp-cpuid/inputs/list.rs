//! A list for KVM, struct kvm_cpuid2.

use crate::pages::read_by_table;
use crate::standing::word;
use snp_cpuid::{KVM_PAGES_BYTES, Refusal};

/// The pages of a list, and whether rows that no table reads were left out to make room.
pub fn taken(list: &[u8]) -> Result<([u8; KVM_PAGES_BYTES], bool), Refusal> {
    let mut pages = [0; KVM_PAGES_BYTES];
    match snp_cpuid::read_kvm(list, &mut pages) {
        Ok(_) => Ok((pages, false)),
        Err(Refusal::ListRows) => snp_cpuid::read_kvm(&only_read(list), &mut pages).map(|_| (pages, true)),
        Err(refusal) => Err(refusal),
    }
}

/// The list with the rows that a table reads.
fn only_read(list: &[u8]) -> Vec<u8> {
    let rows: Vec<&[u8]> = list[8..].chunks_exact(40).filter(|row| is_read(row)).collect();
    [&(rows.len() as u32).to_le_bytes()[..], &[0; 4], &rows.concat()].concat()
}

/// Whether a table reads a row of a list.
pub fn is_read(row: &[u8]) -> bool {
    read_by_table(word(row, 0), word(row, 4))
}
