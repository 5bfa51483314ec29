//! `to-kvm` and `from-kvm`.

use crate::page_sets::EPYC_ROWS;
use crate::run::{EPYC, Folder, run, run_on};
use snp_cpuid::{KVM_PAGES_BYTES, MOST_KVM_BYTES, Options, Refusal, build, read_kvm, write_kvm};
use std::fs;

/// The list of the shipped set, as the library writes it.
fn epyc_list(options: Options) -> Vec<u8> {
    let mut list = vec![0; MOST_KVM_BYTES];
    let length = write_kvm(&fs::read(EPYC).unwrap(), options, &mut list).unwrap();
    list.truncate(length);
    list
}

/// A list of rows: function, index, flags and EAX.
fn listed(rows: &[[u32; 4]]) -> Vec<u8> {
    let words = rows.iter().flat_map(|row| row.iter().copied().chain([0; 6]));
    [rows.len() as u32, 0].into_iter().chain(words).flat_map(u32::to_le_bytes).collect()
}

#[test]
fn the_list_is_the_librarys_and_goes_round() {
    for (options, words) in [(Options::new(), &[][..]), (Options::new().secure_avic(true).edition(2), &["--secure-avic", "--edition", "2"])] {
        let wrote = run(&[&["to-kvm", EPYC, "-o", "-"], words].concat());
        assert_eq!((wrote.status, wrote.err.as_str(), &wrote.out), (0, "", &epyc_list(options)));
        let back = run_on(&wrote.out, &["from-kvm", "-", "-o", "-"]);
        // leaves 0 and 80000000 are made here
        let note = format!("snp-cpuid: note: {EPYC_ROWS} rows, of which the table reads {}\n", EPYC_ROWS - 2);
        assert_eq!((back.status, back.err), (0, note));
        assert_eq!(build(&back.out, options), build(&fs::read(EPYC).unwrap(), options));
    }
}

#[test]
fn rows_that_the_table_does_not_read_go_in_and_are_told() {
    let rows = [[0, 0, 0, 0xD], [0x8000_0000, 0, 0, 0x8000_0021], [0x4000_0000, 0, 0, 1], [7, 0, 1, 2], [7, 1, 1, 3], [0xD, 64, 1, 4], [5, 9, 0, 5]];
    let mut pages = [0; KVM_PAGES_BYTES];
    read_kvm(&listed(&rows), &mut pages).unwrap();
    let ran = run_on(&listed(&rows), &["from-kvm", "-", "-o", "-"]);
    assert_eq!((ran.status, ran.err.as_str(), ran.out.as_slice()), (0, "snp-cpuid: note: 7 rows, of which the table reads 2\n", pages.as_slice()));
    assert_eq!(run_on(&listed(&rows[3..4]), &["from-kvm", "-", "-o", "-"]).err, "snp-cpuid: note: 1 row, of which the table reads 1\n");
}

/// A page holds 64 entries. Where a list has more for one, the rows that no table reads are left out, and the note says so; the library refuses it.
#[test]
fn a_long_list_loses_rows_that_no_table_reads() {
    // the shipped table, of which five rows are of leaf Dh, and rows of a hypervisor's leaves, which stand first
    let rows = epyc_list(Options::new());
    let more = listed(&[[0x4000_0000, 0, 0, 1]; 64 - (EPYC_ROWS - 5)]);
    let count = |many: u32| [many.to_le_bytes(), [0; 4]].concat();
    let long = [&count(64 + 5)[..], &more[8..], &rows[8..]].concat();
    let mut pages = [0; KVM_PAGES_BYTES];
    assert_eq!(read_kvm(&long, &mut pages), Ok(KVM_PAGES_BYTES));
    let longer = [&count(64 + 6)[..], &more[8..48], &more[8..], &rows[8..]].concat();
    assert_eq!(read_kvm(&longer, &mut pages), Err(Refusal::ListRows));
    let read = EPYC_ROWS - 2;
    let left_out = format!("; the {} others are left out, as a page holds 64", 64 + 6 - read);
    for (list, note) in [(long, ""), (longer, left_out.as_str())] {
        let ran = run_on(&list, &["from-kvm", "-", "-o", "-"]);
        let count = (list.len() - 8) / 40;
        assert_eq!((ran.status, ran.err), (0, format!("snp-cpuid: note: {count} rows, of which the table reads {read}{note}\n")));
        assert_eq!(build(&ran.out, Options::new()), build(&fs::read(EPYC).unwrap(), Options::new()));
    }
    // rows that tables read stay, and are too many: 64 of leaf Dh fit, and no more
    let states = |count: u32| listed(&(0..count).map(|k| [0xD, k % 64, 1, 0]).collect::<Vec<_>>());
    assert_eq!(run_on(&states(64), &["from-kvm", "-", "-o", "-"]).status, 0);
    assert!(run_on(&states(65), &["from-kvm", "-", "-o", "/dev/null"]).line().starts_with("standard input: refusal 11: "));
}

#[test]
fn refusals_are_one_line_and_no_file() {
    let folder = Folder::new("kvm");
    let out = folder.path("out");
    for (list, words) in [
        (vec![], "refusal 10: the list for KVM must have 8 bytes and 40 for each row that it counts"),
        (listed(&[[1, 0, 0, 0]; 65]), "refusal 11: the list for KVM has more rows of leaf Dh, or of all others, than the 64 of a page"),
        (listed(&[[1, 0, 2, 0]]), "refusal 12: the list for KVM has a flag other than 0 or 1, or a word that must be zero is not"),
    ] {
        let ran = run_on(&list, &["from-kvm", "-", "-o", &out]);
        assert_eq!((ran.status, ran.line()), (1, format!("standard input: {words}").as_str()));
        assert!(!fs::exists(&out).unwrap());
    }
    assert_eq!(run_on(&[], &["to-kvm", "-", "-o", &out]).status, 2);
}
