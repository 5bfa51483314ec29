//! That the comparison finds what is wrong, and that the Rust answers the marked rows as document 01 says.

use crate::check::Case;
use crate::check::Depth;
use crate::check::PORT;
use crate::check::Port;
use crate::check::check;
use crate::families::FAMILIES;
use crate::families::UNCLEAN;
use crate::pages;
use crate::pages::*;
use crate::run;
use crate::run::Difference;
use oracle::Answer;
use port::Asked;
use port::Built;
use port::Found;
use port::Options;
use port::Written;
use std::ops::Range;

/// The difference that the quick form finds in a port with one function wrong.
fn found(port: Port) -> Box<Difference> {
    FAMILIES.iter().find_map(|family| run::one(&port, family, true, 1).err()).expect("a difference is found")
}

/// The same of the families of document 02, P10.
fn found_unclean(port: Port) -> Box<Difference> {
    UNCLEAN.iter().find_map(|family| run::one(&port, family, true, 1).err()).expect("a difference is found")
}

fn entries(difference: &Difference) -> usize {
    pages::read(&difference.case.pages).iter().map(Vec::len).sum()
}

#[test]
fn a_wrong_detail_of_a_refusal() {
    fn build(pages: &[u8], options: Options) -> Built {
        let built = port::build(pages, options);
        let forgotten = built.number == 3 && built.leaf == STATE && built.subleaf == 12;
        Built { subleaf: if forgotten { 11 } else { built.subleaf }, ..built }
    }
    // the 24 required rows, no component
    assert_eq!(entries(&found(Port { build, ..PORT })), 24);
}

#[test]
fn a_wrong_mask() {
    fn build(pages: &[u8], options: Options) -> Built {
        let built = port::build(pages, options);
        Built { max_extended_state: built.max_extended_state & !(1 << 12), ..built }
    }
    // the 24 required rows and D.12
    assert_eq!(entries(&found(Port { build, ..PORT })), 25);
}

#[test]
fn a_wrong_bit_in_the_image() {
    fn write_image(pages: &[u8], options: Options, out: &mut [u8]) -> Written {
        let written = port::write_image(pages, options, out);
        if written.length > 582 {
            // a register of the last row
            out[written.length as usize - 1] ^= 1;
        }
        written
    }
    assert_eq!(entries(&found(Port { write_image, ..PORT })), 25);
}

#[test]
fn two_rows_of_the_image_exchanged() {
    fn write_image(pages: &[u8], options: Options, out: &mut [u8]) -> Written {
        let written = port::write_image(pages, options, out);
        // leaves 0 and 1, 21 bytes each
        if written.number == 0 {
            out[..42].rotate_left(21);
        }
        written
    }
    let difference = found(Port { write_image, ..PORT });
    assert!(difference.to_string().contains("stands before"), "{difference}");
}

/// The unchanged Rust in the place of the edited one: its shift is another, and it reads no reserved byte.
#[test]
fn edits_that_were_not_made() {
    let port = Port { replaced: oracle::answer, ..PORT };
    assert!(found(port).to_string().contains("the edited cvm_cpuid"));
    assert!(found_unclean(port).to_string().contains("number: 11"), "17 in hexadecimal");
}

#[test]
fn edits_that_forget_the_callers_choice() {
    fn replaced(pages: &[u8], _: bool) -> Answer {
        replaced::answer(pages, false)
    }
    assert!(found(Port { replaced, ..PORT }).case.secure_avic);
}

#[test]
fn the_shift_of_the_rust() {
    fn lookup(pages: &[u8], options: Options, asked: Asked) -> Found {
        let Asked { leaf, has_subleaf, subleaf, .. } = asked;
        let found = port::lookup(pages, options, asked);
        let lower = found.found == 1 && (leaf, has_subleaf, subleaf) == (0xb, true, 1) && !found.ebx.is_power_of_two();
        Found { eax: found.eax - u32::from(lower), ..found }
    }
    found(Port { lookup, ..PORT });
}

/// The image of edition 1 under edition 2, and that of 2 under 1.
#[test]
fn editions_that_are_one() {
    fn first(pages: &[u8], options: Options, out: &mut [u8]) -> Written {
        port::write_image(pages, options.edition(1), out)
    }
    fn second(pages: &[u8], options: Options, out: &mut [u8]) -> Written {
        port::write_image(pages, options.edition(2), out)
    }
    for (write_image, edition) in [(first as fn(&[u8], Options, &mut [u8]) -> Written, 2), (second, 1)] {
        let difference = found(Port { write_image, ..PORT });
        // the 24 required rows, one bit of a feature
        assert_eq!(entries(&difference), 24);
        assert!(difference.to_string().contains(&format!("\nedition {edition}: image\n")), "{difference}");
    }
}

/// One bit of a register as edition 1 has it.
fn as_in_edition_1<const LEAF: u32, const BIT: u32>(pages: &[u8], options: Options, asked: Asked) -> Found {
    let [found, old] = [options, options.edition(1)].map(|options| port::lookup(pages, options, asked));
    let bit = if asked.leaf == LEAF { 1 << BIT } else { 0 };
    Found { ecx: found.ecx & !bit | old.ecx & bit, ..found }
}

#[test]
fn each_bit_of_edition_2_that_is_kept() {
    let f16c = as_in_edition_1::<1, 29>;
    let xop = as_in_edition_1::<0x80000001, 11>;
    let fma4 = as_in_edition_1::<0x80000001, 16>;
    for lookup in [f16c as fn(&[u8], Options, Asked) -> Found, xop, fma4] {
        assert!(found(Port { lookup, ..PORT }).to_string().contains("\nedition 2: Asked"));
    }
}

/// Edition 2 without asking for the state.
#[test]
fn a_bit_of_edition_2_that_is_cleared_always() {
    fn lookup(pages: &[u8], options: Options, asked: Asked) -> Found {
        let found = port::lookup(pages, options, asked);
        let cleared = if options.edition == 2 && asked.leaf == 1 { 1 << 29 } else { 0 };
        Found { ecx: found.ecx & !cleared, ..found }
    }
    // D.2 too
    assert_eq!(entries(&found(Port { lookup, ..PORT })), 25);
}

#[test]
fn a_byte_beyond_the_image() {
    fn write_image(pages: &[u8], options: Options, out: &mut [u8]) -> Written {
        let written = port::write_image(pages, options, out);
        if let Some(byte) = out.get_mut(written.length as usize) {
            *byte = 0;
        }
        written
    }
    assert_eq!(found(Port { write_image, ..PORT }).case.pages.len(), 0);
}

#[test]
fn a_buffer_called_short_that_is_not() {
    fn write_image(pages: &[u8], options: Options, out: &mut [u8]) -> Written {
        let written = port::write_image(pages, options, &mut out.to_vec());
        if written.length as usize == out.len() {
            return Written { number: 9, length: 0, ..written };
        }
        port::write_image(pages, options, out)
    }
    found(Port { write_image, ..PORT });
}

#[test]
fn a_lookup_that_never_enforces() {
    fn lookup(pages: &[u8], options: Options, asked: Asked) -> Found {
        port::lookup(pages, options, Asked { enforce: false, ..asked })
    }
    found(Port { lookup, ..PORT });
}

/// The pages with zero in the reserved bytes of entries below the count: in all of them, or in one of the eight, or in entries that a test names.
fn forgotten(pages: &[u8], bytes: Range<usize>, which: impl Fn(usize, u32) -> bool) -> Vec<u8> {
    let mut changed = pages.to_vec();
    for (page, entries) in pages::read(pages).iter().enumerate() {
        for (position, _) in entries.iter().enumerate().filter(|(_, entry)| which(page, entry.leaf)) {
            changed[place(page, position) + bytes.start..place(page, position) + bytes.end].fill(0);
        }
    }
    changed
}

/// No function may answer as the Rust does, for zeros.
#[test]
fn reserved_bytes_that_are_not_read() {
    fn clean(pages: &[u8]) -> Vec<u8> {
        forgotten(pages, RESERVED, |_, _| true)
    }
    fn build(pages: &[u8], options: Options) -> Built {
        port::build(&clean(pages), options)
    }
    fn lookup(pages: &[u8], options: Options, asked: Asked) -> Found {
        port::lookup(&clean(pages), options, asked)
    }
    fn write_image(pages: &[u8], options: Options, out: &mut [u8]) -> Written {
        port::write_image(&clean(pages), options, out)
    }
    assert_eq!(entries(&found_unclean(Port { build, ..PORT })), 1);
    assert_eq!(entries(&found_unclean(Port { write_image, ..PORT })), 1);
    // a table, with leaf 1
    assert_eq!(entries(&found_unclean(Port { lookup, ..PORT })), 24);
}

#[test]
fn each_reserved_byte_that_is_not_read() {
    fn build<const BYTE: usize>(pages: &[u8], options: Options) -> Built {
        port::build(&forgotten(pages, RESERVED.start + BYTE..RESERVED.start + BYTE + 1, |_, _| true), options)
    }
    for build in [build::<0>, build::<1>, build::<2>, build::<3>, build::<4>, build::<5>, build::<6>, build::<7>] {
        assert_eq!(entries(&found_unclean(Port { build, ..PORT })), 1);
    }
}

/// Entries of leaf Dh off page 1, of leaves that no table keeps, and of every page but the first.
#[test]
fn entries_whose_reserved_bytes_are_not_read() {
    fn state(pages: &[u8], options: Options) -> Built {
        port::build(&forgotten(pages, RESERVED, |page, leaf| leaf == STATE && page != 1), options)
    }
    fn filtered(pages: &[u8], options: Options) -> Built {
        port::build(&forgotten(pages, RESERVED, |_, leaf| leaf != STATE && REQUIRED.iter().all(|required| required.0 != leaf)), options)
    }
    fn later(pages: &[u8], options: Options) -> Built {
        port::build(&forgotten(pages, RESERVED, |page, _| page > 0), options)
    }
    assert_eq!(entries(&found_unclean(Port { build: state, ..PORT })), 1);
    assert_eq!(entries(&found_unclean(Port { build: filtered, ..PORT })), 1);
    assert_eq!(entries(&found_unclean(Port { build: later, ..PORT })), 1);
}

/// The entry at the count, XCR0_IN, and the bytes after the count.
#[test]
fn bytes_that_are_not_reserved_tested() {
    fn with(built: Built, unclean: bool) -> Built {
        if unclean && ![1, 2, 17].contains(&built.number) { Built { number: 17, ..Built::default() } } else { built }
    }
    fn any(pages: &[u8], bytes: Range<usize>) -> bool {
        pages.chunks(PAGE).any(|page| page.get(bytes.clone()).is_some_and(|bytes| bytes.iter().any(|byte| *byte != 0)))
    }
    fn at_the_count(pages: &[u8], options: Options) -> Built {
        let unused =
            |page: &[u8]| word(page, 0) < MOST as u32 && any(page, place(0, word(page, 0) as usize) + 40..place(0, word(page, 0) as usize) + 48);
        let built = port::build(pages, options);
        with(built, pages.len().is_multiple_of(PAGE) && pages.chunks(PAGE).any(unused))
    }
    fn xcr0_in(pages: &[u8], options: Options) -> Built {
        with(port::build(pages, options), any(pages, 16 + 8..16 + 16))
    }
    fn after_the_count(pages: &[u8], options: Options) -> Built {
        with(port::build(pages, options), any(pages, 4..16))
    }
    for build in [at_the_count as fn(&[u8], Options) -> Built, xcr0_in, after_the_count] {
        assert!(entries(&found_unclean(Port { build, ..PORT })) <= 1);
    }
}

#[test]
fn wrong_details_of_refusal_17() {
    fn subleaf_named(pages: &[u8], options: Options) -> Built {
        let built = port::build(pages, options);
        Built { has_subleaf: built.has_subleaf | u32::from(built.number == 17), ..built }
    }
    fn last_named(pages: &[u8], options: Options) -> Built {
        let built = port::build(pages, options);
        if built.number != 17 {
            return built;
        }
        let entries = (0..pages.len() / PAGE).flat_map(|page| (0..word(pages, page * PAGE) as usize).map(move |position| place(page, position)));
        let last = entries.filter(|at| pages[*at..][RESERVED] != [0; 8]).last().expect("an entry is named");
        Built { leaf: word(pages, last), ..built }
    }
    assert_eq!(entries(&found_unclean(Port { build: subleaf_named, ..PORT })), 1);
    assert_eq!(entries(&found_unclean(Port { build: last_named, ..PORT })), 2);
}

/// 17 before a later page's 2, and after 3.
#[test]
fn refusal_17_at_another_place_in_the_order() {
    fn before_2(pages: &[u8], options: Options) -> Built {
        let built = port::build(pages, options);
        let first = port::build(&pages[..PAGE.min(pages.len())], options);
        if (built.number, first.number) == (2, 17) { first } else { built }
    }
    fn after_3(pages: &[u8], options: Options) -> Built {
        let built = port::build(pages, options);
        let clean = port::build(&forgotten(pages, RESERVED, |_, _| true), options);
        if (built.number, clean.number) == (17, 3) { clean } else { built }
    }
    assert_eq!(entries(&found_unclean(Port { build: before_2, ..PORT })), 65);
    assert_eq!(entries(&found_unclean(Port { build: after_3, ..PORT })), 1);
}

/// The Rust's answer for the minimal set with this change; the port must agree on it.
fn answer(change: impl FnOnce(&mut Set)) -> Answer {
    let mut set = minimal();
    change(&mut set);
    let mut case = Case { depth: Depth::Every, ..Case::default() };
    pages::write(&set, 0, &mut case.pages);
    check(&PORT, &case).unwrap();
    oracle::answer(&case.pages, false)
}

fn number(answer: &Answer) -> u32 {
    match answer {
        Answer::Refusal(refusal) => refusal.number,
        _ => 0,
    }
}

fn registers(answer: &Answer, leaf: u32, subleaf: u32) -> Option<[u32; 4]> {
    let Answer::Table { rows, .. } = answer else {
        return None;
    };
    let row = rows.iter().find(|row| (row.leaf, row.subleaf) == (leaf, Some(subleaf)));
    row.map(|row| row.registers)
}

/// T1 to T10 of document 01, "Rows to prove".
#[test]
fn marked_rows_of_topology() {
    let topology = |inputs| answer(|set| set_topology(set, inputs));
    let refused = [([0, 0, 2, 0, 0], 6), ([0, 255, 0, 1, 0], 7), ([7, 128, 128, 1, 0], 7), ([7, 127, 128, 0, 0], 6), ([0, 0, 1, 1, 1], 8)];
    for (inputs, refusal) in refused {
        assert_eq!(number(&topology(inputs)), refusal, "{inputs:?}");
    }
    let accepted =
        [([0, 0, 0, 0, 0], 0, 1), ([0, 2, 3, 1, 0], 1, 3), ([7, 127, 128, 1, 1], 7, 128), ([8, 0, 0, 0, 1], 8, 256), ([15, 0, 0, 0, 0], 15, 32768)];
    for (inputs, shift, processors) in accepted {
        let one = registers(&topology(inputs), 0xb, 1);
        assert_eq!(one, Some([shift, processors, 0x201, 0]), "{inputs:?}");
    }
}

/// X1 to X3 and C1 of document 01, "Rows to prove".
#[test]
fn marked_rows_of_extended_state() {
    let two = |eax, ebx| {
        answer(|set| {
            entry(set, STATE, 0).registers[EAX] = 7;
            set[1].push(Entry { leaf: STATE, subleaf: 2, registers: [eax, ebx, 0, 0] });
        })
    };
    let size = |answer: &Answer| registers(answer, STATE, 0).map(|[_, _, ecx, _]| ecx);
    assert_eq!(size(&answer(|_| ())), Some(576));
    assert_eq!(size(&two(256, 576)), Some(832));
    assert_eq!(number(&two(u32::MAX, 1)), 5);
    assert_eq!(size(&two(u32::MAX, 0)), Some(u32::MAX));

    let dropped = answer(|set| {
        entry(set, STATE, 1).registers = [2, 0, 0x1800, 0];
        set[1].push(Entry { leaf: STATE, subleaf: 11, registers: [16, 0, 1, 0] });
    });
    assert_eq!(registers(&dropped, STATE, 1), Some([2, 0, 0, 0]));
    assert_eq!(registers(&dropped, STATE, 11), None);
}
