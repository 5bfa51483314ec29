//! The library's order of tables held against its pool, whose table is the greatest that rises to both servers', and its comparison of pages.

use crate::features::FEATURES;
use crate::page_sets::{Entries, epyc, rich, set, topology};
use snp_cpuid::{Comparison, Options, Register, Row, Table, TableComparison, build, compare, pool};

/// A generator of numbers, the same in every run (Marsaglia, "Xorshift RNGs", 2003).
struct Numbers(u64);

impl Numbers {
    fn below(&mut self, end: usize) -> usize {
        self.0 ^= self.0 << 13;
        self.0 ^= self.0 >> 7;
        self.0 ^= self.0 << 17;
        (self.0 % end as u64) as usize
    }
}

/// A server with some of its bits flipped: most of them features, as between servers of one model, some anywhere.
fn changed(base: &Entries, numbers: &mut Numbers) -> Entries {
    let mut entries = base.clone();
    for _ in 0..numbers.below(4) {
        let f = &FEATURES[numbers.below(FEATURES.len())];
        let (bit, _) = f.bits[numbers.below(f.bits.len())];
        entries.get_mut(&(f.leaf, f.subleaf.unwrap_or(0))).expect("a required row")[f.register] ^= 1 << bit;
    }
    if numbers.below(6) == 0 {
        let place = *entries.keys().nth(numbers.below(entries.len())).expect("an entry");
        entries.get_mut(&place).expect("an entry")[numbers.below(4)] ^= 1 << numbers.below(32);
    }
    entries
}

/// Accepted servers near one base, with their tables.
fn servers(base: &Entries, many: usize, numbers: &mut Numbers) -> Vec<(Vec<u8>, Table)> {
    let pages = std::iter::repeat_with(|| set(&changed(base, numbers)));
    pages.filter_map(|pages| build(&pages, Options::new()).ok().map(|table| (pages, table))).take(many).collect()
}

/// Pages with a table's rows.
fn rows(table: &Table) -> Vec<u8> {
    let entry = |row: Row| ((row.leaf, row.subleaf.unwrap_or(0)), [row.result.eax, row.result.ebx, row.result.ecx, row.result.edx]);
    set(&table.rows().map(entry).collect())
}

/// A's table rises to B's exactly where the pool of the two is A's table; and it does where the pages promise it.
#[test]
fn as_the_pool_and_the_comparison_of_pages_say() {
    let mut numbers = Numbers(35);
    let (mut rises, mut promised, mut pairs) = (0, 0, 0);
    for base in [epyc(), rich()] {
        let servers = servers(&base, 40, &mut numbers);
        for (a, table_a) in &servers {
            for (b, table_b) in &servers {
                let answer = table_a.compare(table_b);
                let pooled = pool(&[a, b], Options::new());
                assert_eq!(answer == TableComparison::Rises, pooled.as_ref() == Ok(table_a), "{answer:?}");
                if compare(a, b, Options::new()) == Comparison::Rises {
                    assert_eq!(answer, TableComparison::Rises);
                    promised += 1;
                }
                if let Ok(pooled) = pooled {
                    assert_eq!((pooled.compare(table_a), pooled.compare(table_b)), (TableComparison::Rises, TableComparison::Rises));
                }
                // pages with a table's own rows promise what the tables allow
                assert_eq!(answer == TableComparison::Rises, compare(&rows(table_a), &rows(table_b), Options::new()) == Comparison::Rises);
                rises += usize::from(answer == TableComparison::Rises);
                pairs += 1;
            }
        }
    }
    // the pages promise some of the moves that the tables allow, and the tables some of all
    assert!(promised > 80 && rises > promised && pairs > rises, "{promised} {rises} {pairs}");
}

/// Reflexive, both ways only between equal tables, and transitive.
#[test]
fn it_is_an_order() {
    let tables: Vec<Table> = servers(&epyc(), 40, &mut Numbers(7)).into_iter().map(|(_, table)| table).collect();
    let below = |a: &Table, b: &Table| a.compare(b) == TableComparison::Rises;
    for a in &tables {
        assert!(below(a, a));
        for b in &tables {
            assert_eq!(below(a, b) && below(b, a), a == b);
            assert!(tables.iter().all(|c| !(below(a, b) && below(b, c)) || below(a, c)));
        }
    }
}

/// The first place that fails, by leaf, subleaf and register.
#[test]
fn the_first_place_that_fails() {
    let table = |entries: &Entries| build(&set(entries), Options::new()).expect("accepted");
    let with = |leaf, subleaf, register: usize, bits: u32| {
        let mut entries = rich();
        entries.get_mut(&(leaf, subleaf)).unwrap()[register] ^= bits;
        entries
    };
    let full = table(&rich());
    // FMA, and behind it SHA; the brand string; a size of a state; the states of AVX-512, with which features of leaf 7 go first
    let mut both = with(7, 0, 1, 1 << 29);
    both.get_mut(&(1, 0)).unwrap()[2] ^= 1 << 12;
    for (less, leaf, subleaf, register) in [
        (both, 0x1, None, Register::Ecx),
        (with(7, 0, 1, 1 << 29), 0x7, Some(0), Register::Ebx),
        (with(0x8000_0003, 0, 0, 1), 0x8000_0003, None, Register::Eax),
        (with(0xD, 12, 3, 1), 0xD, Some(12), Register::Edx),
        (with(0xD, 0, 0, 0xE0), 0x7, Some(0), Register::Ebx),
        // CET_SS goes with its state
        (with(0xD, 1, 2, 0x1000), 0x7, Some(0), Register::Ecx),
    ] {
        assert_eq!(full.compare(&table(&less)), TableComparison::Differs { leaf, subleaf, register });
    }
    // a larger state behind the others makes the save area larger: that is no less, but the state's own row differs
    let larger = table(&with(0xD, 7, 0, 1024 ^ 2048));
    assert_eq!(full.compare(&larger), TableComparison::Differs { leaf: 0xD, subleaf: Some(7), register: Register::Eax });
    assert_eq!(larger.compare(&full), TableComparison::Differs { leaf: 0xD, subleaf: Some(0), register: Register::Ecx });
    // hyperthreading must be equal; with s from 8 on it is not compared with the counts
    let [on, off] = [1, 0].map(|mt| {
        let mut entries = epyc();
        topology(&mut entries, 8, 127, 128, mt, 1);
        table(&entries)
    });
    for (a, b) in [(&on, &off), (&off, &on)] {
        assert_eq!(a.compare(b), TableComparison::Differs { leaf: 0x1, subleaf: None, register: Register::Edx });
    }
    // further states and their rows are no obstacle
    assert_eq!(table(&with(0xD, 0, 0, 0xE0)).compare(&full), TableComparison::Rises);
    assert_eq!(table(&with(0xD, 1, 2, 0x1000)).compare(&full), TableComparison::Rises);
}
