//! Which differences are in the way: held against the library's comparison over many pairs of servers.

use crate::differences::differences;
use crate::page_sets::{Entries, REQUIRED, epyc, rich, set};
use snp_cpuid::{Comparison, KVM_PAGES_BYTES, MOST_KVM_BYTES, Options, Table, TableComparison, build, compare, read_kvm, write_kvm};

/// Numbers that look random and are the same in every run (xorshift).
struct Numbers(u64);

impl Numbers {
    fn below(&mut self, most: u64) -> u64 {
        self.0 ^= self.0 << 13;
        self.0 ^= self.0 >> 7;
        self.0 ^= self.0 << 17;
        self.0 % most
    }
}

/// A server with up to three bits flipped in entries that every table has.
fn server(base: &Entries, numbers: &mut Numbers) -> Vec<u8> {
    let mut entries = base.clone();
    for _ in 0..numbers.below(4) {
        let place = REQUIRED[numbers.below(REQUIRED.len() as u64) as usize];
        let (register, bit) = (numbers.below(4) as usize, numbers.below(32));
        entries.get_mut(&place).unwrap()[register] ^= 1 << bit;
    }
    set(&entries)
}

/// A table's rows as pages, by the library.
fn as_pages(pages: &[u8]) -> Vec<u8> {
    let (mut list, mut rows) = ([0; MOST_KVM_BYTES], [0; KVM_PAGES_BYTES]);
    let length = write_kvm(pages, Options::new(), &mut list).unwrap();
    read_kvm(&list[..length], &mut rows).unwrap();
    rows.to_vec()
}

/// Every row of the first, at least its features, a save area no smaller and all else equal; beyond it only subleaves of leaf Dh.
fn table_rises(a: &Table, b: &Table) -> bool {
    let registers = |r: snp_cpuid::CpuidResult| [r.eax, r.ebx, r.ecx, r.edx];
    let kept = |row: snp_cpuid::Row| {
        let Some(other) = b.row(row.leaf, row.subleaf) else { return false };
        registers(row.result).into_iter().zip(registers(other)).enumerate().all(|(register, (own, other))| {
            match (crate::features::find(row.leaf, row.subleaf, register), row.leaf, row.subleaf, register) {
                (Some(_), 0x1, None, 3) => own & !other == 0 && (own ^ other) >> 28 & 1 == 0,
                (Some(_), ..) => own & !other == 0,
                (None, 0xD, Some(0), 2) => own <= other,
                (None, ..) => own == other,
            }
        })
    };
    a.rows().all(kept) && b.rows().all(|row| row.leaf == 0xD || a.row(row.leaf, row.subleaf).is_some())
}

/// Where the library says that a guest may move, nothing is in the way; what is in the way is exactly what breaks the promise of the tables.
#[test]
fn nothing_is_in_the_way_where_the_library_says_yes() {
    let mut numbers = Numbers(0x2026_1116);
    let (mut yes, mut no, mut hidden) = (0, 0, 0);
    for round in 0..4000 {
        let base = if round % 2 == 0 { rich() } else { epyc() };
        let (a, b) = (server(&base, &mut numbers), server(&base, &mut numbers));
        let (Ok(table_a), Ok(table_b)) = (build(&a, Options::new()), build(&b, Options::new())) else { continue };
        let all = differences(&table_a, &table_b);
        let in_the_way = all.iter().any(|difference| difference.blocks());
        assert_eq!(all.is_empty(), table_a == table_b);
        assert_eq!(!in_the_way, table_rises(&table_a, &table_b));
        // the same by the library, on pages that have the tables' rows, and on the tables; where it says no, the place that it names is in the way
        assert_eq!(compare(&as_pages(&a), &as_pages(&b), Options::new()) == Comparison::Rises, !in_the_way);
        let answer = table_a.compare(&table_b);
        assert_eq!(answer == TableComparison::Rises, !in_the_way, "{answer:?}");
        assert_eq!(all.iter().any(|difference| difference.blocks() && difference.is_named_by(answer)), in_the_way, "{answer:?}");
        match compare(&a, &b, Options::new()) {
            Comparison::Rises => {
                assert!(!in_the_way);
                yes += 1;
            }
            _ if in_the_way => no += 1,
            // the entries differ where a rule makes the tables agree
            _ => hidden += 1,
        }
    }
    assert!(yes > 300 && no > 1000 && hidden > 0, "{yes} {no} {hidden}");
}
