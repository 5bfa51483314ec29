//! `from-dump` and `to-dump`.

use crate::page_sets::{Entries, REQUIRED, epyc, page, rich, set};
use crate::pages::read_by_table;
use crate::run::{EPYC, Folder, run, run_on};
use snp_cpuid::{Options, PAGE_BYTES, Refusal, build};
use std::fs;

/// The shipped entries in the form of `cpuid -r`.
fn debian(entries: &Entries) -> String {
    entries
        .iter()
        .map(|((l, k), [a, b, c, d])| format!("   0x{l:08x} 0x{k:02x}: eax=0x{a:08x} ebx=0x{b:08x} ecx=0x{c:08x} edx=0x{d:08x}\n"))
        .collect()
}

/// The same in the other form; leaves with one subleaf have no bracket.
fn dashed(entries: &Entries) -> String {
    let bracket = |l: u32, k: u32| if [0x7, 0xB, 0xD, 0x8000_001D].contains(&l) { format!(" [SL {k:02X}]") } else { String::new() };
    entries.iter().map(|((l, k), [a, b, c, d])| format!("CPUID {l:08X}: {a:08X}-{b:08X}-{c:08X}-{d:08X}{}\n", bracket(*l, *k))).collect()
}

/// Runs from-dump on a text; the pages, and what stands on standard error.
fn pages_of(text: &str) -> (Vec<u8>, String) {
    let ran = run_on(text.as_bytes(), &["from-dump", "-", "-o", "-"]);
    assert_eq!(ran.status, 0, "{}", ran.err);
    (ran.out, ran.err)
}

/// The entries that the table reads.
fn kept(entries: Entries) -> Entries {
    entries.into_iter().filter(|((leaf, subleaf), _)| REQUIRED.contains(&(*leaf, *subleaf)) || *leaf == 0xD).collect()
}

#[test]
fn both_forms_give_the_shipped_set() {
    let (expected, taken) = (set(&kept(epyc())), kept(epyc()).len());
    // the others are leaves 0, 6, F, 10, 80000000 and some after it
    let note = format!("snp-cpuid: note: {} rows that the table does not read left out, {taken} taken\n", epyc().len() - taken);
    for text in [debian(&epyc()), dashed(&epyc()), "CPU 0:\n".to_string() + &debian(&epyc()), "CPU:\n".to_string() + &debian(&epyc())] {
        assert_eq!(pages_of(&text), (expected.clone(), note.clone()));
        // other ends of lines, no end at all, empty lines
        assert_eq!(pages_of(&text.replace('\n', "\r\n")).0, expected);
        assert_eq!(pages_of(text.trim_end()).0, expected);
        assert_eq!(pages_of(&text.replace('\n', "\n\n")).0, expected);
    }
    assert_eq!(build(&expected, Options::new()), build(&fs::read(EPYC).unwrap(), Options::new()));
}

#[test]
fn a_page_byte_by_byte() {
    let text = "CPUID 00000001: 01020304-05060708-090A0B0C-0D0E0F10\n\
                \x20  0x0000000d 0x3f: eax=0x1 ebx=0x2 ecx=0x3 edx=0xffffffff\n\
                0x00000005: eax=0x5 ebx=0x6 ecx=0x7 edx=0x8";
    let mut expected = vec![0u8; 2 * PAGE_BYTES];
    expected[0] = 2;
    expected[16] = 1;
    expected[40..56].copy_from_slice(&[4, 3, 2, 1, 8, 7, 6, 5, 0xC, 0xB, 0xA, 9, 0x10, 0xF, 0xE, 0xD]);
    expected[64] = 5;
    (expected[88], expected[92], expected[96], expected[100]) = (5, 6, 7, 8);
    let state = PAGE_BYTES;
    (expected[state], expected[state + 16], expected[state + 20]) = (1, 0xD, 0x3F);
    (expected[state + 40], expected[state + 44], expected[state + 48]) = (1, 2, 3);
    expected[state + 52..state + 56].fill(0xFF);
    assert_eq!(pages_of(text), (expected, String::new()));
}

#[test]
fn rows_stay_in_the_order_of_the_file_and_the_first_counts() {
    let row = |eax: u32| format!("   0x00000005 0x00: eax=0x{eax:08x} ebx=0x00000000 ecx=0x00000000 edx=0x00000000\n");
    let (pages, _) = pages_of(&(row(7) + &row(9) + &debian(&epyc())));
    assert_eq!((pages[40], pages[88]), (7, 9));
    assert_eq!(build(&pages, Options::new()).unwrap().row(5, None).unwrap().eax, 7);
}

#[test]
fn of_several_cpus_the_first_is_taken() {
    let mut other = epyc();
    other.insert((0x5, 0), [1, 2, 3, 4]);
    let (first, second) = (debian(&kept(epyc())), debian(&kept(other.clone())));
    let expected = (set(&kept(epyc())), "snp-cpuid: note: standard input: it has 2 CPUs, the first is taken\n".to_string());
    assert_eq!(pages_of(&format!("CPU 0:\n{first}CPU 1:\n{second}")), expected);
    assert_eq!(pages_of(&format!("{first}CPU 1:\n{second}")), expected);
    let (first, second) = (dashed(&kept(epyc())), dashed(&kept(other)));
    let dashes = format!("------[ Logical CPU #0 ]------\n\n{first}\n------[ CPUID Registers / Logical CPU #1 ]------\n{second}");
    assert_eq!(pages_of(&dashes), expected);
}

#[test]
fn sections_of_something_else_are_passed_over() {
    let rows = dashed(&kept(epyc()));
    let other = "  CPU Type : 64-Core\nCPU:\nCPUID 00000005: 00000001-00000002-00000003-00000004\n\u{e9}\n";
    let expected = (set(&kept(epyc())), String::new());
    let (before, after) = (format!("------[ CPU Info ]------\n{other}\n"), format!("\n------[ MSR Registers / Logical CPU #0 ]------\n{other}"));
    let text = format!("{before}------[ CPUID Registers / Logical CPU #0 ]------\n\n{rows}{after}");
    assert_eq!(pages_of(&text), expected);
    // rows of a section of something else alone are none
    let ran = run_on(format!("------[ CPU Info ]------\n{rows}").as_bytes(), &["from-dump", "-", "-o", "-"]);
    assert_eq!((ran.status, ran.line()), (2, "standard input: has no CPUID row of a first CPU"));
    // and within a CPU's section every line counts
    let ran = run_on(format!("------[ Logical CPU #0 ]------\n{rows}{other}").as_bytes(), &["from-dump", "-", "-o", "-"]);
    assert_eq!(ran.status, 2);
    assert!(ran.line().contains("is no CPUID row and no heading: 'CPU Type : 64-Core'"), "{}", ran.line());
}

#[test]
fn the_text_of_a_leaf_may_stand_in_a_bracket() {
    let text = "CPUID 80000002: 20444D41-43595045-31373720-34362033 [AMD EPYC 7713 64]\n";
    assert_eq!(pages_of(text).0[16..20], 0x8000_0002u32.to_le_bytes());
}

#[test]
fn a_damaged_dump_names_the_line() {
    let folder = Folder::new("damaged");
    let good = "   0x00000001 0x00: eax=0x00a00f11 ebx=0x00800800 ecx=0x7eda320b edx=0x178bfbff";
    for line in [
        "   0x00000001 0x00: eax=0x00a00f11 ebx=0x00800800 ecx=0x7eda320b",
        "   0x00000001 0x00: eax=0x00a00f11 ebx=0x00800800 ecx=0x7eda320b edx=0x178bfbff esi=0x0",
        "   0x00000001 0x00: eax=0x00a00f11 ecx=0x00800800 ebx=0x7eda320b edx=0x178bfbff",
        "   0x00000001 0x00: eax=0x100a00f11 ebx=0x00800800 ecx=0x7eda320b edx=0x178bfbff",
        "   0x00000001 0x00: eax=0x+0a00f11 ebx=0x00800800 ecx=0x7eda320b edx=0x178bfbff",
        "   0x00000001 0x00 0x00: eax=0x00a00f11 ebx=0x00800800 ecx=0x7eda320b edx=0x178bfbff",
        "   00000001 0x00: eax=0x00a00f11 ebx=0x00800800 ecx=0x7eda320b edx=0x178bfbff",
        "CPUID 00000001: 00A00F11-00800800-7EDA320B",
        "CPUID 00000001: 00A00F11-00800800-7EDA320B-178BFBFF-00000000",
        "CPUID 00000001: 00A00F11-00800800-7EDA320B-178BFBF",
        "CPUID 0000000D: 00A00F11-00800800-7EDA320B-178BFBFF [SL 0",
        "CPUID 0000000D: 00A00F11-00800800-7EDA320B-178BFBFF [SL]",
        "CPUID 0000000D: 00A00F11-00800800-7EDA320B-178BFBFF [SL xx]",
        "CPU x:",
        "------[ Motherboard",
        "vendor_id = \"AuthenticAMD\"",
        "\u{1b}[1m\u{e9}",
    ] {
        let file = folder.file("dump", format!("CPU 0:\n{good}\n{line}\n{good}\n"));
        let ran = run(&["from-dump", &file, "-o", &folder.path("out")]);
        assert_eq!(ran.status, 2, "{line}");
        let start = format!("{file}: line 3 is no CPUID row and no heading: '");
        assert!(ran.line().starts_with(&start), "{}", ran.line());
        assert!(ran.line()[start.len()..].is_ascii() && !ran.line().contains('\x1b'), "{}", ran.line());
    }
    // also in the rows of a CPU that is not taken, and in bytes that are no text
    let file = folder.file("dump", format!("CPU 0:\n{good}\nCPU 1:\n{good} x\n"));
    assert!(run(&["from-dump", &file, "-o", &folder.path("out")]).line().contains(": line 4 is no CPUID row"));
    let bytes = run(&["from-dump", &folder.file("dump", [0x80, 0, 0xFF]), "-o", &folder.path("out")]);
    assert_eq!(bytes.status, 2);
    assert!(bytes.line().contains(": line 1 is no CPUID row"));
    assert_eq!(folder.names(), ["dump"]);
}

#[test]
fn no_rows_is_status_2_and_keeps_the_output() {
    let folder = Folder::new("no_rows");
    let old = folder.file("old", "as it was");
    for (text, words) in [("", "is empty"), ("\n\n", "has no CPUID row"), ("CPU 0:\n", "has no CPUID row")] {
        let file = folder.file("dump", text);
        for out in [&old, &folder.path("new")] {
            let ran = run(&["from-dump", &file, "-o", out]);
            assert_eq!(ran.status, 2);
            assert!(ran.line().starts_with(&format!("{file}: {words}")), "{}", ran.line());
        }
    }
    assert_eq!(fs::read(old).unwrap(), b"as it was");
    assert_eq!(folder.names(), ["dump", "old"]);
}

#[test]
fn more_rows_than_a_page_holds() {
    let folder = Folder::new("overflow");
    let row = |leaf: u32| format!("   0x{leaf:08x} 0x00: eax=0x00000000 ebx=0x00000000 ecx=0x00000000 edx=0x00000000\n");
    for (leaf, page) in [(0x1, 0), (0xD, 1)] {
        assert_eq!(pages_of(&row(leaf).repeat(64)).0[page * PAGE_BYTES], 64);
        let file = folder.file("dump", row(leaf).repeat(65));
        let ran = run(&["from-dump", &file, "-o", &folder.path("out")]);
        assert_eq!((ran.status, ran.line()), (2, format!("{file}: 65 rows for page {page}, and a page holds 64").as_str()));
    }
    // rows that the table does not read take no room
    assert_eq!(pages_of(&(row(0x4000_0000).repeat(1000) + &row(1))).1, "snp-cpuid: note: 1000 rows that the table does not read left out, 1 taken\n");
    assert_eq!(folder.names(), ["dump"]);
}

/// Document 01, "Corners of masking.rs": the kept leaves. Those with subleaves are kept under these alone, the others under any.
fn kept_by_document_01(leaf: u32, subleaf: u32) -> bool {
    match leaf {
        0xD => subleaf < 64,
        0x7 | 0xB | 0x8000_001D => REQUIRED.contains(&(leaf, subleaf)),
        _ => REQUIRED.contains(&(leaf, 0)),
    }
}

/// What is left out changes no answer, and what a table needs is not left out: the library decides.
#[test]
fn exactly_what_the_table_reads_goes_in() {
    let base = build(&set(&rich()), Options::new().secure_avic(true)).unwrap();
    for leaf in (0..0x30).chain(0x4000_0000..0x4000_0010).chain(0x8000_0000..0x8000_0030).chain([0x2000_0000, 0x8FFF_FFFF, u32::MAX]) {
        for subleaf in (0..70).chain([0x100, u32::MAX]) {
            assert_eq!(read_by_table(leaf, subleaf), kept_by_document_01(leaf, subleaf), "{leaf:X}.{subleaf:X}");
            if !read_by_table(leaf, subleaf) {
                let mut rows = rich();
                let old = rows.insert((leaf, subleaf), [0x55AA_55AA; 4]);
                assert_eq!(old, None, "{leaf:X}.{subleaf:X} is needed");
                // such an entry first on either page
                let lone = Entries::from([((leaf, subleaf), [0x55AA_55AA; 4])]);
                let (state, others): (Vec<_>, Vec<_>) = rich().into_iter().partition(|((leaf, _), _)| *leaf == 0xD);
                let front = |rest: Vec<((u32, u32), [u32; 4])>| page(lone.iter().chain(rest.iter().map(|(place, registers)| (place, registers))));
                assert_eq!(
                    build(&[front(others), front(state)].concat(), Options::new().secure_avic(true)).as_ref(),
                    Ok(&base),
                    "{leaf:X}.{subleaf:X}"
                );
            }
        }
    }
    for place in rich().keys() {
        let mut rows = rich();
        rows.remove(place);
        assert!(matches!(build(&set(&rows), Options::new().secure_avic(true)), Err(Refusal::MissingRequiredResult(leaf, _)) if leaf == place.0));
        assert!(read_by_table(place.0, place.1));
    }
}

#[test]
fn to_dump_is_the_models_table() {
    // the model's table of the shipped set, as `cpuid -r` would print it
    let image = fs::read("../crates/snp_cpuid_image/stdout").unwrap();
    let (mut expected, mut at) = ("CPU 0:\n".to_string(), 0);
    let number = |at: usize| u32::from_le_bytes(image[at..at + 4].try_into().unwrap());
    while at < image.len() {
        let (leaf, indexed) = (number(at + 1), image[at] == 2);
        let subleaf = if indexed { number(at + 5) } else { 0 };
        at += if indexed { 9 } else { 5 };
        expected += &debian(&Entries::from([((leaf, subleaf), [0, 4, 8, 12].map(|r| number(at + r)))]));
        at += 16;
    }
    let ran = run(&["to-dump", EPYC]);
    assert_eq!((ran.status, ran.text(), ran.err.as_str()), (0, expected.as_str(), ""));
    let folder = Folder::new("to_dump");
    assert_eq!(run(&["to-dump", EPYC, "-o", &folder.path("dump")]).out, b"");
    assert_eq!(fs::read_to_string(folder.path("dump")).unwrap(), expected);
}

#[test]
fn pages_to_dump_to_pages_is_the_same_table() {
    let folder = Folder::new("round_trip");
    for entries in [epyc(), rich()] {
        for flags in [&[][..], &["--secure-avic"]] {
            let first = folder.file("first", set(&entries));
            let (dump, second) = (folder.path("dump"), folder.path("second"));
            assert_eq!(run(&[&["to-dump", &first, "-o", &dump], flags].concat()).status, 0);
            assert_eq!(run(&["from-dump", &dump, "-o", &second]).status, 0);
            let image = |file: &str| run(&[&["image", file, "-o", "-"], flags].concat()).out;
            assert!(image(&first).len() >= 582);
            assert_eq!(image(&second), image(&first));
            assert_eq!(run(&[&["table", &second], flags].concat()), run(&[&["table", &first], flags].concat()));
        }
    }
}
