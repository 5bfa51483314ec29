//! `compare`: pairs of page sets whose answer demand 3 and document 01 ("Feature registers of demand 3") give.

use crate::features::{FEATURES, REGISTERS};
use crate::page_sets::{EPYC_ROWS, epyc, page, position, rich, set, topology, unclean, with, without};
use crate::run::{EPYC, Folder, Ran, run, run_on};
use snp_cpuid::{Options, fingerprint as of_pages};
use std::fs;

/// Compares two sets.
fn compare(folder: &Folder, a: &[u8], b: &[u8], flags: &[&str]) -> Ran {
    let (a, b) = (folder.file("a", a), folder.file("b", b));
    let ran = run(&[&["compare", &a, &b], flags].concat());
    let (verdict, rest) = ran.text().split_once("\n\n").expect("the answer comes first");
    assert!(if ran.status == 0 { ["same: ", "yes: "] } else { ["no: "; 2] }.iter().any(|word| verdict.starts_with(word)), "{verdict}");
    let (servers, rest) = rest.split_once("\n\n").expect("the two servers");
    assert!(servers.starts_with(&format!("A  {a}: ")) && servers.contains(&format!("\nB  {b}: ")), "{servers}");
    assert!(servers.ends_with("\nunder edition 1 of the AVX rule"), "{servers}");
    assert!(verdict.lines().chain(rest.lines()).all(|line| line.len() <= 100 && line.is_ascii() && !line.ends_with(' ')));
    ran
}

/// The verdict, the differences in the way and those that are not, and the two directions, each on one line.
#[derive(Debug, PartialEq, Eq)]
struct Parts {
    verdict: String,
    in_the_way: Vec<String>,
    free: Vec<String>,
    there: String,
    back: String,
}

fn parts(ran: &Ran) -> Parts {
    let blocks: Vec<&str> = ran.text().trim_end().split("\n\n").collect();
    let directions = blocks.last().expect("two directions").replace("\n        ", " ");
    let directions = directions.strip_prefix("By the entries, before the other table is built:\n").expect("their heading");
    let (there, back) = directions.split_once('\n').expect("two directions");
    let under = |heading: &str| {
        let block = blocks.iter().find_map(|block| block.strip_prefix(&format!("{heading} from A to B:\n")));
        block.map_or(vec![], |block| block.lines().map(String::from).collect())
    };
    let verdict = blocks[0].replace('\n', " ");
    Parts { verdict, in_the_way: under("In the way"), free: under("Not in the way"), there: there.into(), back: back.into() }
}

fn fingerprint(pages: &[u8]) -> String {
    of_pages(pages, Options::new()).unwrap().to_string()
}

/// What the table of the one has where the library says yes.
fn promise(from: &str, to: &str) -> String {
    format!("{to}'s table has every row of {from}'s, at least {from}'s features, a save area no smaller, and everything else equal.")
}

fn yes(from: &str, to: &str) -> String {
    format!("{from} to {to}  yes: {}", promise(from, to))
}

fn no(from: &str, to: &str, why: &str) -> String {
    format!("{from} to {to}  no: {why}.")
}

/// A feature bit that goes, of two sets that have their entries in the same places.
fn lacks(from: &str, to: &str, name: &str, place: &str, bit: u32, at: &str) -> String {
    format!("{to} lacks {name}, leaf {place} bit {bit}: {from} has it at {at}, {to} has not at {at}")
}

/// A guest may move, and programs that start there may see these bits; by some of them libraries choose their code.
fn may(more: &str, chosen: &str) -> String {
    let figures = if chosen.is_empty() { String::new() } else { format!("By {chosen} libraries choose how they compute, so figures may change. ") };
    format!("yes: a running guest of A may move to B, and programs that start there may see more: {more}. {figures}{}", promise("A", "B"))
}

const MAY_NOT: &str = "no: a guest of A may not move to B. ";
const EQUAL: &str = "same: A and B give a guest the same table, row for row.";

fn texts(lines: &[&str]) -> Vec<String> {
    lines.iter().map(|line| line.to_string()).collect()
}

#[test]
fn a_set_and_itself() {
    let folder = Folder::new("compare_same");
    let ran = compare(&folder, &set(&epyc()), &set(&epyc()), &[]);
    assert_eq!((ran.status, ran.err.as_str()), (0, ""));
    assert_eq!(parts(&ran), Parts { verdict: EQUAL.into(), in_the_way: vec![], free: vec![], there: yes("A", "B"), back: yes("B", "A") });
    let pages = fs::read(EPYC).unwrap();
    let piped = run_on(&pages, &["compare", "-", EPYC]);
    let told = format!("accepted, {EPYC_ROWS} rows\n   fingerprint {}\n", fingerprint(&pages));
    assert!(piped.text().contains(&format!("\nA  standard input: {told}B  {EPYC}: {told}")), "{}", piped.text());
}

#[test]
fn one_bit_fewer() {
    let folder = Folder::new("compare_fma");
    // FMA: 1.ECX bit 12
    let (full, less) = (set(&epyc()), set(&with(0x1, 0, 2, |ecx| ecx & !(1 << 12))));
    let falls = compare(&folder, &full, &less, &[]);
    assert_eq!((falls.status, falls.err.as_str()), (1, ""));
    let at = position(&full, 1, 0);
    let entries = format!("00000001    A {at}, B {at}");
    let first = |from, to| lacks(from, to, "FMA", "00000001 ECX", 12, &at);
    let expected = Parts {
        verdict: format!("{MAY_NOT}B lacks FMA, leaf 00000001 ECX bit 12."),
        in_the_way: texts(&[&entries, "00000001    ECX  FMA (bit 12): A has it, B has not (libm, libmvec)"]),
        free: vec![],
        there: no("A", "B", &first("A", "B")),
        back: yes("B", "A"),
    };
    assert_eq!(parts(&falls), expected);
    let rises = compare(&folder, &less, &full, &[]);
    assert_eq!((rises.status, rises.err.as_str()), (0, ""));
    let expected = Parts {
        verdict: may("FMA", "FMA"),
        in_the_way: vec![],
        free: texts(&[&entries, "00000001    ECX  FMA (bit 12): B has it, A has not (libm, libmvec)"]),
        there: yes("A", "B"),
        back: no("B", "A", &first("B", "A")),
    };
    assert_eq!(parts(&rises), expected);
    // the same table is asked for
    let same = |a: &[u8], b: &[u8]| compare_same(&folder, a, b);
    assert_eq!((same(&full, &full), same(&less, &full), same(&full, &less)), (0, 1, 1));
}

/// The status of `compare --same`; what it prints is as without.
fn compare_same(folder: &Folder, a: &[u8], b: &[u8]) -> i32 {
    let (a, b) = (folder.file("a", a), folder.file("b", b));
    let (asked, plain) = (run(&["compare", &a, &b, "--same"]), run(&["compare", &a, &b]));
    assert_eq!(asked.out, plain.out);
    asked.status
}

/// Every feature bit that a server may lack stands in the way and is named; the other way round nothing does.
#[test]
fn every_feature_bit_by_name() {
    let folder = Folder::new("compare_every_bit");
    // set in every table, or needed by it; without the states of D.0.EAX and D.1 their rows go too, which bits_of_states tries
    let always = ["Hypervisor", "BTC_NO", "INVLPGB", "HTT"];
    let mut tried = 0;
    for f in FEATURES.iter().filter(|f| f.leaf != 0xD) {
        for (bit, name) in f.bits.iter().filter(|(_, name)| !always.contains(name)) {
            let mut less = rich();
            less.get_mut(&(f.leaf, f.subleaf.unwrap_or(0))).unwrap()[f.register] &= !(1 << bit);
            let ran = compare(&folder, &set(&rich()), &set(&less), &["--secure-avic"]);
            let Parts { verdict, in_the_way: lines, free, there, back } = parts(&ran);
            assert_eq!((ran.status, free, back), (1, vec![], yes("B", "A")), "{name}");
            let place = f.subleaf.map_or(format!("{:08X}", f.leaf), |k| format!("{:08X}.{k:X}", f.leaf));
            // the answer names the bit, or one in a leaf before it that hangs on it; by the entries it is the bit itself
            let at = position(&set(&rich()), f.leaf, f.subleaf.unwrap_or(0));
            let first = if *name == "TscAuxVirtualization" {
                "RDPID, leaf 00000007.0 ECX bit 22"
            } else {
                &format!("{name}, leaf {place} {} bit {bit}", REGISTERS[f.register])
            };
            assert_eq!(verdict, format!("{MAY_NOT}B lacks {first}."));
            assert_eq!(there, no("A", "B", &lacks("A", "B", name, &format!("{place} {}", REGISTERS[f.register]), *bit, &at)));
            let line = format!("{place:12}{}  {name} (bit {bit}): A has it, B has not{}", REGISTERS[f.register], chosen_by(name));
            assert!(lines.contains(&line), "{line}: {lines:?}");
            // with it go the features that hang on it: IBRS and STIBP on IBPB, in the same row, RDTSCP and RDPID on the TSC_AUX bit, in two others; a
            // row that differs has one line more, its entries
            let differ = match *name {
                "IBPB" => 3 + 1,
                "TscAuxVirtualization" => 3 + 3,
                _ => 1 + 1,
            };
            assert_eq!(lines.len(), differ, "{lines:?}");
            assert!(lines.contains(&format!("{place:12}A {at}, B {at}")), "{lines:?}");
            tried += 1;
        }
    }
    assert_eq!(tried, 16 + 22 + 20 + 15 + 4 + 11 + 27 + 12 + 3 + 9);
}

/// The mark behind a bit by which libraries choose their code: glibc's libm by FMA with AVX2 and by FMA4, libmvec by FMA with AVX2 and by AVX512DQ,
/// OpenBLAS by AVX, AVX2 and AVX512VL.
fn chosen_by(name: &str) -> &'static str {
    match name {
        "FMA" => " (libm, libmvec)",
        "AVX2" => " (libm, libmvec, OpenBLAS)",
        "AVX512DQ" => " (libmvec)",
        "AVX" | "AVX512VL" => " (OpenBLAS)",
        "FMA4" => " (libm)",
        _ => "",
    }
}

/// AVX-512 and its states: rows of one table alone, a larger save area, a wider mask.
#[test]
fn bits_of_states() {
    let folder = Folder::new("compare_states");
    let mut less = rich();
    less.get_mut(&(0xD, 0)).unwrap()[0] &= !0xE0;
    for entry in [5, 6, 7] {
        less.remove(&(0xD, entry));
    }
    let ran = compare(&folder, &set(&less), &set(&rich()), &[]);
    let Parts { verdict, in_the_way, free: lines, .. } = parts(&ran);
    let more = "AVX512F, AVX512DQ, AVX512_IFMA, AVX512CD, AVX512BW, AVX512VL, AVX512_VBMI, AVX512_VBMI2, AVX512_VNNI, AVX512_BITALG, \
                AVX512_VPOPCNTDQ, AVX512_VP2INTERSECT, AVX512_FP16, opmask, ZMM_Hi256 and Hi16_ZMM";
    assert_eq!((ran.status, verdict, in_the_way), (0, may(more, "AVX512DQ and AVX512VL"), vec![]));
    for line in [
        "00000007.0  EBX  AVX512F (bit 16): B has it, A has not",
        "00000007.0  EBX  AVX512VL (bit 31): B has it, A has not (OpenBLAS)",
        "00000007.0  EDX  AVX512_FP16 (bit 23): B has it, A has not",
        "0000000D.0  EAX  opmask (bit 5): B has it, A has not",
        "0000000D.0  EAX  ZMM_Hi256 (bit 6): B has it, A has not",
        "0000000D.0  EAX  Hi16_ZMM (bit 7): B has it, A has not",
        "0000000D.0  ECX  A 00000340, B 00000980",
        // page 1 has D.0, D.1, D.2, D.5 and so on
        "0000000D.0  A page 1 entry 0, B page 1 entry 0",
        "0000000D.5  a row of B alone, page 1 entry 3",
        "0000000D.6  a row of B alone, page 1 entry 4",
        "0000000D.7  a row of B alone, page 1 entry 5",
    ] {
        assert!(lines.contains(&line.to_string()), "{line}: {lines:?}");
    }
    // document 01: 7.0.EBX D0230000h, 7.0.ECX 5842h, 7.0.EDX 800100h
    let cleared = [0xD023_0000u32, 0x5842, 0x80_0100].map(u32::count_ones).iter().sum::<u32>() as usize;
    // and the entries of 7.0 and D.0; three states, their rows, and a larger save area
    assert_eq!(lines.len(), cleared + 7 + 2);
}

/// Every register that is no feature register must be equal; D.0.ECX and the rows of leaf Bh are free.
#[test]
fn other_registers_by_value() {
    let folder = Folder::new("compare_values");
    for (leaf, subleaf, register, line) in [
        (0x5, 0, 0, "00000005    EAX  A 00000040, B 00000041"),
        (0x7, 0, 0, "00000007.0  EAX  A 00000000, B 00000001"),
        (0xD, 0, 1, "0000000D.0  EBX  A 00000340, B 00000341"),
        (0xD, 12, 3, "0000000D.C  EDX  A 00000000, B 00000001"),
        (0x8000_001D, 3, 2, "8000001D.3  ECX  A 00007FFF, B 00007FFE"),
    ] {
        let ran = compare(&folder, &set(&epyc()), &set(&with(leaf, subleaf, register, |value| value ^ 1)), &[]);
        let (place, at) = (line.split(' ').next().unwrap(), position(&set(&epyc()), leaf, subleaf));
        let (a, b) = line.split_once("  A ").unwrap().1.split_once(", B ").unwrap();
        let first = |from, to, own: &str, other: &str| {
            let register = REGISTERS[register];
            format!("leaf {place} {register} must be equal: {from} has {own} at {at}, {to} {other} at {at}, first unlike at bit 0")
        };
        assert_eq!((ran.status, ran.err.as_str()), (1, ""));
        let expected = Parts {
            verdict: format!("{MAY_NOT}Leaf {place} {} must be equal: A has {a}, B {b}.", REGISTERS[register]),
            in_the_way: texts(&[&format!("{place:12}A {at}, B {at}"), line]),
            free: vec![],
            there: no("A", "B", &first("A", "B", a, b)),
            back: no("B", "A", &first("B", "A", b, a)),
        };
        assert_eq!(parts(&ran), expected);
    }
    for (leaf, subleaf, register) in [(0xB, 0, 0), (0xB, 1, 3), (0xD, 0, 2)] {
        let ran = compare(&folder, &set(&epyc()), &set(&with(leaf, subleaf, register, |value| value ^ 1)), &[]);
        assert_eq!((ran.status, parts(&ran).verdict.as_str()), (0, EQUAL));
    }
}

/// Bit 28 of 1.EDX is named, and must be equal. T8 and T9: with s from 8 on it is not compared with the counts.
#[test]
fn hyperthreading_must_be_equal() {
    let folder = Folder::new("compare_htt");
    let sets = [1, 0].map(|mt| {
        let mut entries = epyc();
        topology(&mut entries, 8, 127, 128, mt, 1);
        set(&entries)
    });
    let ran = compare(&folder, &sets[0], &sets[1], &[]);
    let Parts { in_the_way, free, there, back, .. } = parts(&ran);
    let at = position(&sets[0], 1, 0);
    assert_eq!((ran.status, free), (1, vec![]));
    assert_eq!(in_the_way, [&format!("00000001    A {at}, B {at}"), "00000001    EDX  HTT (bit 28): A has it, B has not"]);
    let more = format!("A has HTT, leaf 00000001 EDX bit 28, at {at}, which B has not at {at}, and it must be equal");
    assert_eq!((there, back), (no("A", "B", &lacks("A", "B", "HTT", "00000001 EDX", 28, &at)), no("B", "A", &more)));
    // in the way from either side
    let turned = parts(&compare(&folder, &sets[1], &sets[0], &[]));
    assert_eq!((turned.in_the_way.len(), turned.free), (2, vec![]));
}

#[test]
fn secure_avic_is_compared_where_it_is_kept() {
    let folder = Folder::new("compare_avic");
    let mut less = rich();
    less.get_mut(&(0x8000_001F, 0)).unwrap()[0] &= !(1 << 26);
    assert_eq!(parts(&compare(&folder, &set(&rich()), &set(&less), &[])).verdict, EQUAL);
    let at = position(&set(&rich()), 0x8000_001F, 0);
    let first = |from, to| no(from, to, &lacks(from, to, "SecureAvic", "8000001F EAX", 26, &at));
    let entries = format!("8000001F    A {at}, B {at}");
    let falls = parts(&compare(&folder, &set(&rich()), &set(&less), &["--secure-avic"]));
    assert_eq!(falls.in_the_way, texts(&[&entries, "8000001F    EAX  SecureAvic (bit 26): A has it, B has not"]));
    assert_eq!((falls.there, falls.back), (first("A", "B"), yes("B", "A")));
    let rises = parts(&compare(&folder, &set(&less), &set(&rich()), &["--secure-avic"]));
    assert_eq!(rises.free, texts(&[&entries, "8000001F    EAX  SecureAvic (bit 26): B has it, A has not"]));
    assert_eq!((rises.there, rises.back), (yes("A", "B"), first("B", "A")));
}

/// Tables that agree where the entries do not: AVX512F without its states is cleared. Equal tables are yes; by the entries alone it is no.
#[test]
fn equal_tables_of_different_entries() {
    let folder = Folder::new("compare_entries");
    let more = set(&with(0x7, 0, 1, |ebx| ebx | 1 << 16));
    let ran = compare(&folder, &more, &set(&epyc()), &[]);
    let first = lacks("A", "B", "AVX512F", "00000007.0 EBX", 16, &position(&more, 7, 0)) + ", which the tables do not show";
    assert_eq!(ran.status, 0);
    let expected = Parts { verdict: EQUAL.into(), in_the_way: vec![], free: vec![], there: no("A", "B", &first), back: yes("B", "A") };
    assert_eq!(parts(&ran), expected);
}

/// The tables' answer comes first: B has what A's table shows and more, though its entry lacks RDPID, which both tables hide.
#[test]
fn a_table_may_rise_where_entries_do_not() {
    let folder = Folder::new("compare_tables");
    // without the TSC_AUX bit of 8000001Fh.EAX no table shows RDPID
    let hide = |entries: &mut crate::page_sets::Entries| entries.get_mut(&(0x8000_001F, 0)).unwrap()[0] &= !(1 << 9);
    let (mut a, mut b) = (rich(), rich());
    hide(&mut a);
    hide(&mut b);
    b.get_mut(&(0x7, 0)).unwrap()[2] &= !(1 << 22);
    let ran = compare(&folder, &set(&a), &set(&b), &[]);
    let at = position(&set(&a), 7, 0);
    let hidden = lacks("A", "B", "RDPID", "00000007.0 ECX", 22, &at) + ", which the tables do not show";
    assert_eq!((parts(&ran).verdict.as_str(), parts(&ran).there), (EQUAL, no("A", "B", &hidden)));
    // and B has one feature more
    a.get_mut(&(0x1, 0)).unwrap()[2] &= !(1 << 12);
    let ran = compare(&folder, &set(&a), &set(&b), &[]);
    let entries = format!("00000001    A {0}, B {0}", position(&set(&a), 1, 0));
    let expected = Parts {
        verdict: may("FMA", "FMA"),
        in_the_way: vec![],
        free: texts(&[&entries, "00000001    ECX  FMA (bit 12): B has it, A has not (libm, libmvec)"]),
        there: no("A", "B", &hidden),
        back: no("B", "A", &lacks("B", "A", "FMA", "00000001 ECX", 12, &position(&set(&a), 1, 0))),
    };
    assert_eq!((ran.status, parts(&ran)), (0, expected));
}

/// Document 02, P11: the two entries are named by their own places, and it is the first of B's that counts. Rows that are made here have none.
#[test]
fn entries_in_other_places() {
    let folder = Folder::new("compare_places");
    let (one, two) = (epyc(), with(0x5, 0, 0, |eax| eax + 1));
    let (state, others): (Vec<_>, Vec<_>) = two.iter().partition(|((leaf, _), _)| *leaf == 0xD);
    let (state_count, fifth) = (state.len(), [(&(0x5, 7), &two[&(0x5, 0)])]);
    // an empty page, then leaf Dh and an entry of leaf 5 on page 1, the others in falling order on page 2
    let moved = [page([]), page(state.into_iter().chain(fifth)), page(others.into_iter().rev())].concat();
    let ran = compare(&folder, &set(&one), &moved, &[]);
    let entries = format!("A {}, B page 1 entry {state_count}", position(&set(&one), 5, 0));
    let Parts { in_the_way, there, back, .. } = parts(&ran);
    assert_eq!(in_the_way, [&format!("00000005    {entries}"), "00000005    EAX  A 00000040, B 00000041"]);
    let (a, b) = (position(&set(&one), 5, 0), format!("page 1 entry {state_count}"));
    let first = |from, own, to, other| format!("leaf 00000005 EAX must be equal: {from} has {own}, {to} {other}, first unlike at bit 0");
    assert_eq!(there, no("A", "B", &first("A", format!("00000040 at {a}"), "B", format!("00000041 at {b}"))));
    assert_eq!(back, no("B", "A", &first("B", format!("00000041 at {b}"), "A", format!("00000040 at {a}"))));

    let three = |t| {
        let mut entries = epyc();
        topology(&mut entries, 7, 127, 128, 1, t);
        set(&entries)
    };
    let lines = parts(&compare(&folder, &three(0), &three(1), &[])).in_the_way;
    assert_eq!(lines[..3], ["0000000B.0  made here", "0000000B.0  EAX  A 00000000, B 00000001", "0000000B.0  EBX  A 00000001, B 00000002"]);
}

/// Where the hypothesis holds B may be refused by 3 or 5 alone; elsewhere, and for A, by any.
#[test]
fn refused_sets_are_status_1_with_the_refusal() {
    let folder = Folder::new("compare_refused");
    // one state more, without its entry or with one whose size overflows
    let missing = with(0xD, 0, 0, |eax| eax | 0x20);
    let mut large = missing.clone();
    large.insert((0xD, 5), [u32::MAX, 1, 0, 0]);
    for (b, number) in [(missing, 3), (large, 5)] {
        let ran = compare(&folder, &set(&epyc()), &set(&b), &[]);
        assert_eq!(ran.status, 1);
        assert!(ran.failure().starts_with(&format!("{}: refusal {number}: ", folder.path("b"))), "{}", ran.err);
        let expected = Parts {
            verdict: format!("no: B is refused, by {number}."),
            in_the_way: vec![],
            free: vec![],
            there: format!("A to B  B has at least A's entries, but B is refused, by {number}, which only a state that A lacks can cause."),
            back: no("B", "A", &format!("B is refused, by {number}")),
        };
        assert_eq!(parts(&ran), expected);
    }
    let mut counted = set(&epyc());
    counted[0] = 65;
    for (b, why) in [
        ([set(&epyc()), vec![0]].concat(), "{to}'s pages cannot be read: refusal 1"),
        (counted, "{to}'s pages cannot be read: refusal 2"),
        (unclean(&without(0x5, 0), 1, 0, 3), "{to}'s pages cannot be read: refusal 17"),
        (set(&without(0x5, 0)), "{to} has no entry for leaf 00000005, which {from} has at {5}"),
        (set(&without(0x8000_001D, 2)), "{to} has no entry for leaf 8000001D.2, which {from} has at {1D}"),
        (set(&with(0x8000_0008, 0, 1, |ebx| ebx & !8)), "{to} lacks INVLPGB, leaf 80000008 EBX bit 3: {from} has it at {8}, {to} has not at {8}"),
    ] {
        let places = [("{5}", 0x5, 0), ("{1D}", 0x8000_001D, 2), ("{8}", 0x8000_0008, 0)];
        let at = |text: &str, (name, leaf, subleaf): (&str, u32, u32)| text.replace(name, &position(&set(&epyc()), leaf, subleaf));
        let why = places.into_iter().fold(why.to_string(), |text, place| at(&text, place));
        let ran = compare(&folder, &set(&epyc()), &b, &[]);
        assert_eq!((ran.status, parts(&ran).verdict.starts_with("no: B is refused, by ")), (1, true));
        assert_eq!(parts(&ran).there, no("A", "B", &why.replace("{from}", "A").replace("{to}", "B")));
        // the other way round A is refused, and its line comes
        let turned = compare(&folder, &b, &set(&epyc()), &[]);
        assert_eq!((turned.status, parts(&turned).verdict.ends_with(", so it has no guest.")), (1, true));
        assert!(turned.failure().starts_with(&format!("{}: refusal ", folder.path("a"))));
        assert_eq!(parts(&turned).back, no("B", "A", &why.replace("{from}", "B").replace("{to}", "A")));
    }
    let cut = &set(&epyc())[..8191];
    let both = compare(&folder, cut, cut, &[]);
    assert_eq!((both.status, parts(&both).verdict.as_str()), (1, "no: A is refused, by 1, and B, by 1."));
    assert!(both.failure().starts_with(&format!("{}: refusal 1: ", folder.path("a"))));
}

/// The view of a processor, dumped inside its guest, against the table: unlike as they stand, the same with --view; a bit less is told as before.
#[test]
fn a_guests_own_view() {
    let folder = Folder::new("compare_view");
    let table = snp_cpuid::build(&set(&epyc()), Options::new()).unwrap();
    for (x2apic, xcr0, xss, osxsave) in [(5, 3, 0x800, true), (0x105, 7, 0, false), (0, 1, 0, true)] {
        let seen = table.guest(crate::check::processor(x2apic, xcr0, xss, osxsave)).unwrap();
        let (own, whole) = (folder.file("own", &*seen.image()), folder.file("whole", &*table.image()));
        assert_eq!((run(&["compare", &own, &whole]).status, run(&["compare", &whole, &own]).status), (1, 1));
        for (a, b) in [(&own, &whole), (&whole, &own)] {
            let ran = run(&["compare", a, b, "--view", "--same"]);
            assert!(
                ran.status == 0 && ran.text().starts_with("same: one processor sees the same of A's table and B's, row for row.\n"),
                "{}",
                ran.text()
            );
            assert!(ran.text().contains(&format!("fingerprint {}\n", table.fingerprint())), "{}", ran.text());
        }
        let less = folder.file("less", set(&with(0x1, 0, 2, |ecx| ecx & !(1 << 12))));
        let ran = run(&["compare", &own, &less, "--view"]);
        assert!(ran.status == 1 && ran.text().contains("B lacks FMA, leaf 00000001 ECX bit 12."), "{}", ran.text());
    }
}
