//! Where rows came from (document 02, P11): the library's own numbers, the crate's types over them, and what moves no row or all. crates/vectors has
//! the model's answers.

mod replay;

use replay::shipped;
use snp_cpuid::exports::{First, Found as Numbers, snp_cpuid_first_entry, snp_cpuid_guest_lookup, snp_cpuid_lookup};
use snp_cpuid::{
    Comparison, Found, KVM_PAGES_BYTES, MOST_KVM_BYTES, Options, Origin, PAGE_BYTES, Processor, Refusal, Row, Table, build, compare, first_entry,
    guest, guest_lookup, lookup, read_kvm, write_kvm,
};

const PROCESSOR: Processor = Processor::new(5).xcr0(3).xss(0x800).osxsave(true);

fn number(pages: &[u8], at: usize) -> u32 {
    u32::from_le_bytes(pages[at..at + 4].try_into().unwrap())
}

/// The first entry of a leaf and subleaf by document 01's layout, of a set that has leaf Dh on page 1 alone.
fn position(pages: &[u8], leaf: u32, subleaf: Option<u32>) -> Origin {
    let places = (0..pages.len() / PAGE_BYTES).flat_map(|page| (0..number(pages, page * PAGE_BYTES) as usize).map(move |entry| (page, entry)));
    let at = |(page, entry): (usize, usize)| page * PAGE_BYTES + 16 + 48 * entry;
    let is = |place| number(pages, at(place)) == leaf && subleaf.is_none_or(|k| number(pages, at(place) + 4) == k);
    let (page, entry) = places.filter(|&place| is(place)).min().expect("the set has this entry");
    Origin::Entry { page, entry }
}

/// The same entries elsewhere: page 0 is empty, leaf Dh stays on page 1, where alone it counts, and all others are on page 2.
fn moved() -> Vec<u8> {
    let pages = shipped();
    let (first, second) = pages.split_at(PAGE_BYTES);
    [&[0; PAGE_BYTES], second, first].concat()
}

fn origins(table: &Table) -> Vec<Origin> {
    table.rows().map(|row| row.origin).collect()
}

#[test]
fn every_row_has_its_entry() {
    for pages in [shipped(), moved()] {
        let table = build(&pages, Options::new()).unwrap();
        for row in table.rows() {
            let made = matches!((row.leaf, row.subleaf), (0 | 0x8000_0000, None) | (0xB, Some(0 | 1)));
            let expected = if made { Origin::MadeHere } else { position(&pages, row.leaf, row.subleaf) };
            assert_eq!(row.origin, expected, "{row:X?}");
            assert_eq!(table.find(row.leaf, row.subleaf), Some(row));
        }
        assert_eq!(origins(&table).iter().filter(|origin| **origin == Origin::MadeHere).count(), 4);
    }
}

/// Sameness "means everything but origins": tables are equal, their rows are not.
#[test]
fn equal_tables_from_other_entries() {
    let [old, new] = [shipped(), moved()].map(|pages| build(&pages, Options::new()).unwrap());
    assert_eq!(old, new);
    assert_ne!(old.find(1, None), new.find(1, None));
    assert_eq!(old.find(0xD, Some(2)), new.find(0xD, Some(2)));
    assert_ne!(old, guest(&shipped(), Options::new(), PROCESSOR).unwrap());
}

/// The library's numbers for every lookup of the shipped set: nothing found, made here, or an entry; page and entry are 0 but for the last.
#[test]
fn the_numbers_of_a_lookup() {
    let pages = shipped();
    let table = build(&pages, Options::new()).unwrap();
    let mut seen = [0; 3];
    for leaf in (0..0x10).chain(0x8000_0000..0x8000_0021).chain([0x4000_0000, u32::MAX]) {
        for (named, subleaf) in [(false, 0), (false, 9)].into_iter().chain([0, 1, 2, 5, 12, 63, 64, u32::MAX].map(|k| (true, k))) {
            for enforce in [false, true] {
                // SAFETY: the pointer and length are those of a vector's bytes
                let found = unsafe { snp_cpuid_lookup(pages.as_ptr(), pages.len(), false, 1, leaf, named, subleaf, enforce) };
                let here = table.lookup(leaf, named.then_some(subleaf), enforce);
                let expected = match here {
                    None => Numbers::default(),
                    Some(Found { result: r, origin }) => {
                        let (origin, page, entry) = match origin {
                            Origin::MadeHere => (1, 0, 0),
                            Origin::Entry { page, entry } => (2, page as u64, entry as u32),
                            _ => panic!("pages were read"),
                        };
                        Numbers { found: 1, eax: r.eax, ebx: r.ebx, ecx: r.ecx, edx: r.edx, origin, page, entry }
                    }
                };
                assert_eq!(found, expected);
                assert_eq!(here, lookup(&pages, Options::new(), leaf, named.then_some(subleaf), enforce));
                seen[found.origin as usize] += 1;
            }
        }
    }
    assert!(seen.iter().all(|&many| many > 20), "every answer occurs: {seen:?}");
}

#[test]
fn a_guests_rows_came_from_the_same_entries() {
    for pages in [shipped(), moved()] {
        let (table, seen) = (build(&pages, Options::new()).unwrap(), guest(&pages, Options::new(), PROCESSOR).unwrap());
        assert_ne!(table, seen);
        assert_eq!(origins(&table), origins(&seen));
        for Row { leaf, subleaf, result, origin } in seen.rows() {
            assert_eq!(guest_lookup(&pages, Options::new(), PROCESSOR, leaf, subleaf, true), Some(Found { result, origin }));
        }
    }
    // a guest that is refused has no row, and no origin
    let pages = shipped();
    // SAFETY: the pointer and length are those of a vector's bytes
    let found = unsafe { snp_cpuid_guest_lookup(pages.as_ptr(), pages.len(), false, 1, 5, 2, 0, true, 1, false, 0, true) };
    assert_eq!(found, Numbers::default());
}

/// "After import .. the origin is that of the pages last read": rows of a list ascend, leaf Dh goes to page 1.
#[test]
fn after_import() {
    let mut list = [0; MOST_KVM_BYTES];
    let length = write_kvm(&moved(), Options::new(), &mut list).unwrap();
    let mut again = [0; KVM_PAGES_BYTES];
    read_kvm(&list[..length], &mut again).unwrap();
    let (old, new) = (build(&moved(), Options::new()).unwrap(), build(&again, Options::new()).unwrap());
    assert_eq!(old, new);
    let mut next = [0, 0];
    for row in new.rows() {
        let page = (row.leaf == 0xD) as usize;
        if row.origin != Origin::MadeHere {
            assert_eq!(row.origin, Origin::Entry { page, entry: next[page] });
        }
        next[page] += 1;
    }
    assert_ne!(origins(&old), origins(&new));
}

/// P8: "carried over unchanged", where bits go and where none does.
#[test]
fn carrying_changes_no_origin() {
    for mut pages in [shipped(), moved()] {
        // D.0 is the first entry of page 1: no YMM state, so F16C goes
        pages[PAGE_BYTES + 16 + 24] = 3;
        let running = build(&pages, Options::new()).unwrap();
        for (from, to) in [(1, 1), (1, 2)] {
            let carried = running.carry(from, to, 3, 0x800).unwrap();
            assert_eq!(carried == running, to == 1);
            assert_eq!(origins(&carried), origins(&running));
        }
        assert_eq!(origins(&build(&pages, Options::new().edition(2)).unwrap()), origins(&running));
    }
}

/// The entries that a comparison names, also where there is no table; what is no lawful set gives its number.
#[test]
fn first_entries() {
    let (a, mut b) = (shipped(), moved());
    // leaf 5 of B, on page 2
    let Origin::Entry { page, entry } = position(&b, 5, None) else { panic!() };
    let at = page * PAGE_BYTES + 16 + 48 * entry;
    b[at + 24] ^= 1;
    let Comparison::Differs { leaf, subleaf, .. } = compare(&a, &b, Options::new()) else { panic!() };
    assert_eq!((leaf, subleaf), (5, None));
    assert_eq!(first_entry(&a, leaf, 0), Ok(Some(position(&a, 5, None))));
    assert_eq!(first_entry(&b, leaf, u32::MAX), Ok(Some(Origin::Entry { page: 2, entry })));
    b[at] = 6;
    assert_eq!(compare(&a, &b, Options::new()), Comparison::NoEntry { leaf: 5, subleaf: None });
    assert_eq!(first_entry(&b, 5, 0), Ok(None));
    // the rows of leaf Bh are made here, and have entries all the same
    assert_eq!(first_entry(&a, 0xB, 1), Ok(Some(position(&a, 0xB, Some(1)))));
    assert_eq!([0, 0x8000_0000, 0x4000_0000].map(|leaf| first_entry(&a, leaf, 0)), [Ok(None); 3]);

    let mut counted = shipped();
    counted[PAGE_BYTES] = 65;
    let mut unclean = shipped();
    unclean[16 + 48 + 40] = 1;
    for (pages, refusal) in [(vec![], Refusal::PagesLength), (counted, Refusal::PageCount), (unclean, Refusal::ReservedBytes { leaf: 1 })] {
        assert_eq!(first_entry(&pages, 5, 0), Err(refusal));
        // SAFETY: the pointer and length are those of a vector's bytes
        let numbers = unsafe { snp_cpuid_first_entry(pages.as_ptr(), pages.len(), 5, 0) };
        assert_eq!(numbers, First { number: refusal.number(), leaf: refusal.details().leaf, ..First::default() });
    }
}

#[test]
fn words() {
    assert_eq!(Origin::MadeHere.to_string(), "made here");
    assert_eq!(Origin::Entry { page: 0, entry: 63 }.to_string(), "page 0 entry 63");
}
