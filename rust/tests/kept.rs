//! A table that is kept, against the functions that start from pages: on the page sets of the lists in this folder, under every choice.

mod replay;

use replay::{edited, shipped};
use snp_cpuid::exports::{self, snp_cpuid_build, snp_cpuid_guest_build, snp_cpuid_table_build};
use snp_cpuid::{
    Comparison, MOST_IMAGE_BYTES, MOST_KVM_BYTES, NotCarried, NotPooled, Options, PLACES, Processor, Refusal, Table, TableComparison, build,
    carry_image, compare, guest, guest_lookup, lookup, pool, pool_lookup, write_guest_image, write_image, write_kvm, write_pool_image,
};
use std::collections::{BTreeSet, HashSet};

/// The page sets that comparisons.txt and kvm.txt name by edits of the shipped one.
fn page_sets() -> Vec<Vec<u8>> {
    let list = |path| std::fs::read_to_string(path).expect("a list of this folder");
    let (comparisons, kvm) = (list("tests/comparisons.txt"), list("tests/kvm.txt"));
    let pairs = comparisons.lines().flat_map(|line| line.split(' ').skip(2).take(2));
    let written = kvm.lines().filter(|line| line.starts_with("write ")).filter_map(|line| line.split(' ').nth(3));
    let edits: BTreeSet<&str> = pairs.chain(written).collect();
    edits.into_iter().map(|edit| edited(shipped(), edit)).collect()
}

/// The choices: both of secure AVIC, both editions and one that is none.
fn choices() -> Vec<Options> {
    [false, true].into_iter().flat_map(|avic| [1, 2, 3].map(|edition| Options::new().secure_avic(avic).edition(edition))).collect()
}

/// Every leaf that a table can have and its neighbours, under subleaves within and beyond.
fn questions() -> impl Iterator<Item = (u32, Option<u32>, bool)> {
    let leaves = (0..0xF).chain(0x8000_0000..0x8000_0022).chain([0x4000_0000, u32::MAX]);
    let subleaves = || [None, Some(64), Some(u32::MAX)].into_iter().chain((0..13).map(Some));
    leaves.flat_map(move |leaf| subleaves().flat_map(move |subleaf| [false, true].map(|enforce| (leaf, subleaf, enforce))))
}

/// Processors: with each state that the shipped set has, with none, and beyond it.
fn processors() -> impl Iterator<Item = Processor> {
    let states = [(1, 0), (3, 0x800), (7, 0x1800), (7, 0), (0, 0), (0xE7, 0), (1, 1 << 40), (1 << 63 | 1, 0), (u64::MAX, u64::MAX)];
    states.into_iter().enumerate().map(|(x2apic, (xcr0, xss))| Processor::new(0x101 * x2apic as u32).xcr0(xcr0).xss(xss).osxsave(x2apic % 2 == 0))
}

/// A write: its length and the bytes, of room filled with A5.
fn written(room: usize, write: impl Fn(&mut [u8]) -> Result<usize, Refusal>) -> (Result<usize, Refusal>, Vec<u8>) {
    let mut out = vec![0xA5; room];
    (write(&mut out), out)
}

/// Building says the same in number and counts; a refusal leaves no rows, whatever was there. Then lookups, image and list.
#[test]
fn built_and_found() {
    let (mut tables, mut refused, mut found) = (0, BTreeSet::new(), 0);
    for pages in page_sets() {
        for options in choices() {
            let Options { secure_avic, edition, .. } = options;
            let mut memory = exports::Table { registers: [0x5A5A_5A5A; 4 * PLACES], origins: [7; PLACES] };
            let (registers, origins) = (memory.registers.as_mut_ptr(), memory.origins.as_mut_ptr());
            // SAFETY: pointers and lengths are those of vectors and of the two arrays
            let (plain, kept) = unsafe {
                let kept = snp_cpuid_table_build(pages.as_ptr(), pages.len(), secure_avic, edition, registers, origins);
                (snp_cpuid_build(pages.as_ptr(), pages.len(), secure_avic, edition), kept)
            };
            assert_eq!(plain, kept);
            let table = Table::build(&pages, options);
            assert_eq!((table.clone().map_err(|refusal| refusal.number()).err().unwrap_or(0), &table), (plain.number, &build(&pages, options)));
            let Ok(table) = table else {
                refused.insert(plain.number);
                assert!(memory.registers == [0; 4 * PLACES] && memory.origins == [0; PLACES]);
                assert_eq!(Table::from(memory).rows().len(), 0);
                continue;
            };
            tables += 1;
            assert_eq!(&memory, table.memory());
            assert_eq!((table.row_count() as u64, table.max_extended_state()), (plain.row_count, plain.max_extended_state));
            for (leaf, subleaf, enforce) in questions() {
                let row = table.lookup(leaf, subleaf, enforce);
                assert_eq!(row, lookup(&pages, options, leaf, subleaf, enforce), "{leaf:X} {subleaf:?} {enforce}");
                found += u32::from(row.is_some());
            }
            let length = table.image().len();
            for room in [0, length - 1, length, MOST_IMAGE_BYTES] {
                assert_eq!(written(room, |out| table.write_image(out)), written(room, |out| write_image(&pages, options, out)));
            }
            for room in [0, 8 + 40 * table.row_count() - 1, 8 + 40 * table.row_count(), MOST_KVM_BYTES] {
                assert_eq!(written(room, |out| table.write_kvm(out)), written(room, |out| write_kvm(&pages, options, out)));
            }
            let read = Table::try_from(&table.image()[..]).unwrap();
            assert_eq!((&read, read.image()), (&table, table.image()));
        }
    }
    assert!(tables > 100 && found > 100 * tables && refused.len() > 6, "{tables} {found} {refused:?}");
}

/// What a guest reads, row by row and whole, and with the state that was kept.
#[test]
fn seen_by_a_guest() {
    let mut answers = [0; 15];
    for pages in page_sets().into_iter().step_by(3) {
        let options = Options::new();
        let Ok(table) = Table::build(&pages, options) else { continue };
        for processor in processors() {
            let Processor { x2apic, xcr0, xss, osxsave, .. } = processor;
            // SAFETY: the pointer and length are those of a vector
            let built = unsafe { snp_cpuid_guest_build(pages.as_ptr(), pages.len(), false, 1, x2apic, xcr0, xss, osxsave) };
            let (state, seen) = (table.state(xcr0, xss), table.guest(processor));
            assert_eq!(state.map_or_else(|refusal| refusal.number(), |_| 0), built.number);
            assert_eq!(seen, guest(&pages, options, processor));
            assert_eq!(seen.as_ref().err(), state.as_ref().err());
            answers[built.number as usize] += 1;
            for (leaf, subleaf, enforce) in questions() {
                let row = table.guest_row(processor, leaf, subleaf, enforce);
                assert_eq!(row.as_ref().err(), state.as_ref().err());
                assert_eq!(row.unwrap_or(None), guest_lookup(&pages, options, processor, leaf, subleaf, enforce));
                if let (Ok(state), Ok(seen)) = (state, &seen) {
                    assert_eq!(row, Ok(table.guest_row_kept(processor, state, leaf, subleaf, enforce)));
                    assert_eq!(row, Ok(seen.lookup(leaf, subleaf, enforce)));
                }
            }
            if let Ok(seen) = seen {
                assert_eq!(seen.max_extended_state(), table.max_extended_state());
                let room = MOST_IMAGE_BYTES;
                assert_eq!(written(room, |out| seen.write_image(out)), written(room, |out| write_guest_image(&pages, options, processor, out)));
            }
        }
    }
    assert!(answers[0] > 20 && answers[13] > 20, "{answers:?}");
}

/// Carrying in place does to the table what carrying its image does to the bytes, and leaves where rows came from.
#[test]
fn carried() {
    let mut answers = BTreeSet::new();
    for pages in page_sets().into_iter().step_by(3) {
        let Ok(table) = Table::build(&pages, Options::new()) else { continue };
        for (from, to) in [(1, 1), (1, 2), (2, 1), (2, 2), (0, 1), (1, 3)] {
            for Processor { xcr0, xss, .. } in processors() {
                let (mut own, mut image) = (table.clone(), table.image().to_vec());
                let answer = own.carry_in_place(from, to, xcr0, xss);
                assert_eq!(answer.map_err(NotCarried::Refused), carry_image(&mut image, from, to, xcr0, xss));
                assert_eq!(own.image(), image);
                assert_eq!(own.memory().origins, table.memory().origins);
                assert_eq!(table.carry(from, to, xcr0, xss), answer.map(|()| own));
                answers.insert(answer.map_or_else(|refusal| refusal.number(), |()| 0));
            }
        }
    }
    assert_eq!(answers, BTreeSet::from([0, 13, 15, 16]));
}

/// Where the comparison of pages says yes and B is accepted, the tables' does; equal tables are at least each other. Pools are the library's own.
#[test]
fn compared_and_pooled() {
    let sets: Vec<Vec<u8>> = page_sets().into_iter().step_by(11).collect();
    let (mut rises, mut pooled, mut not) = (0, 0, BTreeSet::new());
    let options = Options::new().secure_avic(true);
    for a in &sets {
        for b in sets.iter().step_by(5) {
            let room = MOST_IMAGE_BYTES;
            let both = pool(&[a, b], options);
            let image = written(room, |out| write_pool_image(&[a, b], options, out));
            match &both {
                Ok(table) => {
                    assert_eq!(written(room, |out| table.write_image(out)), image);
                    let origins = |row: snp_cpuid::Row| pool_lookup(&[a, b], options, row.leaf, row.subleaf, true).unwrap().origin == row.origin;
                    assert!(table.rows().all(origins));
                    pooled += 1;
                }
                Err(NotPooled { refusal, .. }) => {
                    assert_eq!(image.0, Err(*refusal));
                    not.insert(refusal.number());
                }
            }
            let (Ok(of_a), Ok(of_b)) = (Table::build(a, options), Table::build(b, options)) else { continue };
            let answer = of_a.compare(&of_b);
            assert_eq!(answer == TableComparison::Rises && of_b.compare(&of_a) == TableComparison::Rises, of_a == of_b);
            // a table rises to another exactly where it is what both have
            assert_eq!(answer == TableComparison::Rises, both.as_ref() == Ok(&of_a), "{answer}");
            rises += u32::from(answer == TableComparison::Rises);
            if compare(a, b, options) == Comparison::Rises {
                assert_eq!(answer, TableComparison::Rises);
            }
        }
    }
    assert!(rises > 20 && pooled > rises && not.contains(&19), "{rises} {pooled} {not:?}");
}

/// Equal tables have one hash, wherever their rows came from; and a table is iterated by reference.
#[test]
fn hashed_and_iterated() {
    let sets = page_sets();
    let tables: Vec<Table> = sets.iter().filter_map(|pages| Table::build(pages, Options::new()).ok()).collect();
    let images: HashSet<Vec<u8>> = tables.iter().map(|table| table.image().to_vec()).collect();
    let read = tables.iter().map(|table| Table::try_from(&table.image()[..]).unwrap());
    let kept: HashSet<Table> = tables.iter().cloned().chain(read).collect();
    assert_eq!(kept.len(), images.len());
    assert!(images.len() > 10);
    for table in &tables {
        let mut rows = table.rows();
        for (seen, row) in table.into_iter().enumerate() {
            assert_eq!((rows.len(), rows.next()), (table.row_count() - seen, Some(row)));
            assert_eq!(table.find(row.leaf, row.subleaf), Some(row));
        }
        assert_eq!((rows.len(), rows.next(), rows.next()), (0, None, None));
    }
}
