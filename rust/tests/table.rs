//! The crate over the shipped page set and over damaged ones.

use snp_cpuid::{CpuidResult, MOST_IMAGE_BYTES, Options, PAGE_BYTES, Refusal, Row, TopologyError, build, lookup, write_image};

fn epyc() -> Vec<u8> {
    std::fs::read("../tests/data/epyc-milan.pages").expect("the shipped page set")
}

/// A page's entries start at 16 and have 48 bytes each: leaf, subleaf, XCR0, XSS, EAX, EBX, ECX, EDX.
fn entry(pages: &[u8], leaf: u32, subleaf: u32) -> usize {
    let number = |at: usize| u32::from_le_bytes(pages[at..at + 4].try_into().unwrap());
    (0..pages.len() / PAGE_BYTES)
        .flat_map(|page| (0..number(page * PAGE_BYTES)).map(move |i| page * PAGE_BYTES + 16 + 48 * i as usize))
        .find(|&at| number(at) == leaf && number(at + 4) == subleaf)
        .expect("the set has this entry")
}

/// The set with one register of one entry changed; 0 is EAX.
fn with(leaf: u32, subleaf: u32, register: usize, change: impl Fn(u32) -> u32) -> Vec<u8> {
    let mut pages = epyc();
    let at = entry(&pages, leaf, subleaf) + 24 + 4 * register;
    let old = u32::from_le_bytes(pages[at..at + 4].try_into().unwrap());
    pages[at..at + 4].copy_from_slice(&change(old).to_le_bytes());
    pages
}

/// The set with one entry's leaf changed to one that is not kept.
fn without(leaf: u32, subleaf: u32) -> Vec<u8> {
    let mut pages = epyc();
    let at = entry(&pages, leaf, subleaf);
    pages[at..at + 4].copy_from_slice(&0x4000_0000u32.to_le_bytes());
    pages
}

/// The set with one byte of one entry set; 40 to 47 are its reserved ones.
fn unclean(mut pages: Vec<u8>, leaf: u32, subleaf: u32, byte: usize) -> Vec<u8> {
    let at = entry(&pages, leaf, subleaf) + byte;
    pages[at] = 1;
    pages
}

#[test]
fn rows_are_the_images_of_the_model() {
    // the program's expected output, which the model of document 01 wrote (tests/model/model.py)
    let expected = std::fs::read("../crates/snp_cpuid_image/stdout").expect("the model's image");
    let table = build(&epyc(), Options::new()).unwrap();
    assert_eq!(table.image(), expected);
    let count = expected.len().checked_sub(582).unwrap() / 25 + 26;
    assert_eq!(table.rows().count(), count);
    assert_eq!(table.max_extended_state().count_ones() as usize, count - 26 + 2);
}

#[test]
fn rows_rise() {
    let rows: Vec<Row> = build(&epyc(), Options::new()).unwrap().rows().collect();
    assert!(rows.windows(2).all(|w| (w[0].leaf, w[0].subleaf) < (w[1].leaf, w[1].subleaf)));
}

#[test]
fn every_lookup_is_the_librarys() {
    let pages = epyc();
    let table = build(&pages, Options::new()).unwrap();
    let mut found = 0;
    for leaf in (0..0x20).chain(0x8000_0000..0x8000_0023).chain([0x4000_0000, u32::MAX]) {
        for subleaf in [None, Some(u32::MAX)].into_iter().chain((0..40).map(Some)) {
            for enforce in [false, true] {
                let here = table.lookup(leaf, subleaf, enforce);
                assert_eq!(here, lookup(&pages, Options::new(), leaf, subleaf, enforce), "{leaf:X} {subleaf:?} {enforce}");
                found += here.is_some() as u32;
            }
        }
    }
    assert!(found > 26);
}

#[test]
fn every_refusal_by_name() {
    let cases: [(Vec<u8>, Refusal); 13] = [
        (vec![], Refusal::PagesLength),
        (epyc()[1..].to_vec(), Refusal::PagesLength),
        (
            {
                let mut p = epyc();
                p[PAGE_BYTES] = 65;
                p
            },
            Refusal::PageCount,
        ),
        (without(0x1, 0), Refusal::MissingRequiredResult(0x1, None)),
        (without(0xD, 1), Refusal::MissingRequiredResult(0xD, Some(1))),
        (without(0xD, 2), Refusal::MissingRequiredResult(0xD, Some(2))),
        (with(0x8000_0008, 0, 1, |ebx| ebx & !8), Refusal::InvlpgbUnavailable),
        (with(0xD, 2, 0, |_| u32::MAX), Refusal::SaveAreaOverflow),
        // s = 1 to 7 and no hyperthreading
        (with(0x1, 0, 3, |edx| edx & !(1 << 28)), Refusal::TopologyInconsistent(TopologyError::Hyperthreading(s()))),
        // a processor count that is not 2^s
        (with(0x1, 0, 1, |ebx| ebx ^ 1 << 16), Refusal::TopologyInconsistent(TopologyError::ProcessorCount(s()))),
        (with(0x8000_001E, 0, 1, |ebx| ebx | 0xFF00), Refusal::TopologyInconsistent(TopologyError::ThreadsPerUnit)),
        (unclean(epyc(), 0x8000_001D, 3, 47), Refusal::ReservedBytes { leaf: 0x8000_001D }),
        // before 3
        (unclean(without(0x1, 0), 0x4000_0000, 0, 40), Refusal::ReservedBytes { leaf: 0x4000_0000 }),
    ];
    for (pages, refusal) in cases {
        assert_eq!(build(&pages, Options::new()).err(), Some(refusal));
        let mut out = [0xA5; MOST_IMAGE_BYTES];
        assert_eq!(write_image(&pages, Options::new(), &mut out), Err(refusal));
        assert_eq!(out, [0xA5; MOST_IMAGE_BYTES]);
        assert_eq!(lookup(&pages, Options::new(), 1, None, false), None);
    }
}

/// Bits 12 to 15 of 80000008h.ECX in the shipped set.
fn s() -> u8 {
    let pages = epyc();
    let at = entry(&pages, 0x8000_0008, 0) + 32;
    pages[at + 1] >> 4
}

#[test]
fn a_short_buffer_is_left_and_a_long_one_beyond_the_image() {
    let pages = epyc();
    let length = build(&pages, Options::new()).unwrap().image().len();
    for room in [0, 1, length - 1] {
        let mut out = vec![0x5A; room];
        assert_eq!(write_image(&pages, Options::new(), &mut out), Err(Refusal::BufferTooShort));
        assert!(out.iter().all(|&byte| byte == 0x5A));
    }
    let mut out = vec![0x5A; length + 100];
    assert_eq!(write_image(&pages, Options::new(), &mut out), Ok(length));
    assert!(out[length..].iter().all(|&byte| byte == 0x5A));
    assert_eq!(build(&pages, Options::new()).unwrap().image(), out[..length]);
}

#[test]
fn secure_avic_adds_one_bit() {
    let pages = with(0x8000_001F, 0, 0, |_| u32::MAX);
    let row = |avic| build(&pages, Options::new().secure_avic(avic)).unwrap().row(0x8000_001F, None).unwrap();
    let CpuidResult { eax, .. } = row(true);
    assert_eq!(eax ^ row(false).eax, 1 << 26);
}

/// Document 02, P7: XFEM 3, every feature bit of leaves 1 and 80000001h.
#[test]
fn edition_2_clears_three_bits_without_the_state() {
    let mut pages = with(0xD, 0, 0, |_| 3);
    for leaf in [1, 0x8000_0001] {
        let at = entry(&pages, leaf, 0) + 32;
        pages[at..at + 4].fill(0xFF);
    }
    let rows = |edition| build(&pages, Options::new().edition(edition)).unwrap().rows().collect::<Vec<Row>>();
    for (old, new) in rows(1).into_iter().zip(rows(2)) {
        let cleared = match old.leaf {
            1 => 1 << 29,
            0x8000_0001 => 1 << 11 | 1 << 16,
            _ => 0,
        };
        assert_eq!(old.result.ecx & cleared, cleared);
        assert_eq!(new, Row { result: CpuidResult { ecx: old.result.ecx & !cleared, ..old.result }, ..old });
    }
    // with the state the editions are one
    assert_eq!(build(&epyc(), Options::new().edition(2)), build(&epyc(), Options::new().edition(1)));
}

/// 15 comes before every other refusal, in every function that builds, and no byte is written.
#[test]
fn an_edition_that_is_none() {
    for edition in [0, 3, 257, 258, 1 << 31, u32::MAX] {
        let options = Options::new().edition(edition);
        for pages in [vec![], epyc()[1..].to_vec(), without(1, 0), epyc()] {
            assert_eq!(build(&pages, options), Err(Refusal::UnknownEdition));
            assert_eq!(lookup(&pages, options, 1, None, false), None);
            for room in [0, 1, MOST_IMAGE_BYTES] {
                let mut out = vec![0xA5; room];
                assert_eq!(write_image(&pages, options, &mut out), Err(Refusal::UnknownEdition));
                assert!(out.iter().all(|&byte| byte == 0xA5));
            }
        }
    }
}

/// Document 02, P10: of the entries of one page each byte from XCR0_IN on that is no result, below the count and above it.
#[test]
fn eight_bytes_of_an_entry_below_the_count() {
    let (shipped, first) = (build(&epyc(), Options::new()), PAGE_BYTES + 16);
    let count = u32::from_le_bytes(epyc()[PAGE_BYTES..PAGE_BYTES + 4].try_into().unwrap()) as usize;
    for position in 0..64 {
        for byte in (8..24).chain(40..48) {
            let mut pages = epyc();
            pages[first + 48 * position + byte] = 0x80;
            let refused = position < count && byte >= 40;
            let wanted = if refused { Err(Refusal::ReservedBytes { leaf: 0xD }) } else { shipped.clone() };
            assert_eq!(build(&pages, Options::new()), wanted, "{position} {byte}");
        }
    }
}

#[test]
fn usual_options() {
    assert_eq!(Options::default(), Options::new());
    assert_eq!(Options::new(), Options::new().secure_avic(true).edition(2).edition(1).secure_avic(false));
    let chosen = Options::new().edition(7).secure_avic(true);
    assert_eq!((chosen.edition, chosen.secure_avic), (7, true));
}

#[test]
fn texts_name_what_to_look_at() {
    let text = |r: Refusal| r.to_string();
    assert_eq!(text(Refusal::MissingRequiredResult(0x8000_001D, Some(3))), "no entry for leaf 8000001Dh subleaf 3h, which every guest needs");
    assert!(text(Refusal::MissingRequiredResult(0xD, Some(11))).contains("leaf Dh subleaf Bh on page 1"));
    assert!(text(Refusal::TopologyInconsistent(TopologyError::ProcessorCount(7))).contains("APIC core id size 7"));
    assert_eq!(
        text(Refusal::ReservedBytes { leaf: 0x4000_0000 }),
        "an entry for leaf 40000000h has a reserved byte, one of its last eight, that is not zero"
    );
    let refusals = [Refusal::PagesLength, Refusal::PageCount, Refusal::InvlpgbUnavailable, Refusal::SaveAreaOverflow, Refusal::BufferTooShort];
    assert_eq!(refusals.map(|r| r.number()), [1, 2, 4, 5, 9]);
}
