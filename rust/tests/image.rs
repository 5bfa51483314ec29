//! Tables read from images: those that building and pooling write, and bytes that are none.

use snp_cpuid::{MOST_IMAGE_BYTES, NotAnImage, Options, Origin, Table, build, pool};
use std::fs;

fn epyc() -> Vec<u8> {
    fs::read("../tests/data/epyc-milan.pages").expect("the shipped page set")
}

/// The shipped set, without YMM state, and their pool, under both editions: read back the table is the same, and no row has an entry.
#[test]
fn what_was_written_is_read() {
    let mut less = epyc();
    assert_eq!(less[4096 + 16], 0xD);
    less[4096 + 16 + 24] = 3;
    for edition in [1, 2] {
        for secure_avic in [false, true] {
            let options = Options::new().edition(edition).secure_avic(secure_avic);
            for table in [build(&epyc(), options).unwrap(), build(&less, options).unwrap(), pool(&[epyc(), less.clone()], options).unwrap()] {
                let read = Table::try_from(&table.image()[..]).unwrap();
                assert_eq!(read, table);
                assert_eq!((read.image(), read.max_extended_state()), (table.image(), table.max_extended_state()));
                assert!(read.rows().all(|row| row.origin == Origin::Unknown) && table.rows().all(|row| row.origin != Origin::Unknown));
                let registers = |table: &Table| table.rows().map(|row| (row.leaf, row.subleaf, row.result)).collect::<Vec<_>>();
                assert_eq!(registers(&read), registers(&table));
            }
        }
    }
}

#[test]
fn what_is_no_image_is_not_read() {
    let table = build(&epyc(), Options::new()).unwrap();
    let image = table.image();
    // cut off anywhere but between rows, and with a byte too many
    let mut ends = vec![0];
    for row in table.rows() {
        ends.push(ends.last().unwrap() + if row.subleaf.is_some() { 25 } else { 21 });
    }
    for length in 0..image.len() {
        assert_eq!(Table::try_from(&image[..length]).is_ok(), ends.contains(&length), "{length}");
    }
    assert_eq!(Table::try_from(&[&image[..], &[0]].concat()[..]), Err(NotAnImage));
    // a kind that is none, a leaf that no table has, rows out of order, a row twice
    let changed = |at: usize, byte: u8| {
        let mut copy = image.to_vec();
        copy[at] = byte;
        Table::try_from(&copy[..])
    };
    assert_eq!((changed(0, 3), changed(0, 2), changed(1, 9)), (Err(NotAnImage), Err(NotAnImage), Err(NotAnImage)));
    assert_eq!(Table::try_from(&[&image[21..42], &image[..21], &image[42..]].concat()[..]), Err(NotAnImage));
    assert_eq!(Table::try_from(&[&image[..21], &image].concat()[..]), Err(NotAnImage));
    assert_eq!(Table::try_from(&epyc()[..]), Err(NotAnImage));
}

/// Any table's image is read, also one longer than those of building or without the rows that a guest needs.
#[test]
fn tables_built_otherwise() {
    // D.0 to D.63, and D.64 is no row of a table
    let row = |subleaf: u8| [&[2, 0xD, 0, 0, 0, subleaf, 0, 0, 0][..], &[0; 16]].concat();
    let image = |rows: u8| (0..rows).flat_map(row).collect::<Vec<u8>>();
    for rows in [0, 1, 29, 30, 64] {
        let table = Table::try_from(&image(rows)[..]).unwrap();
        assert_eq!((table.row_count(), table.rows().len()), (rows.into(), rows.into()));
        assert_eq!(table.image(), image(rows));
    }
    assert_eq!(Table::try_from(&image(65)[..]), Err(NotAnImage));
    assert!(image(64).len() > MOST_IMAGE_BYTES);
}
