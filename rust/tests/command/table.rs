//! `table` and `image`: rows against the model's image, words against the manual and document 01.

use crate::features::FEATURES;
use crate::page_sets::{self, epyc, rich, set, with};
use crate::run::{EPYC, Folder, run};
use std::collections::BTreeMap;
use std::fs;

/// Rows of an image, each as the line that the command prints and with its registers.
fn rows_of_image(image: &[u8]) -> Vec<(String, [u32; 4])> {
    let (mut rows, mut at) = (vec![], 0);
    let number = |at: usize| u32::from_le_bytes(image[at..at + 4].try_into().unwrap());
    while at < image.len() {
        let indexed = image[at] == 2;
        let start = at + 5 + 4 * indexed as usize;
        let registers = [0, 4, 8, 12].map(|r| number(start + r));
        let name = if indexed { format!("{:08X}.{:X}", number(at + 1), number(at + 5)) } else { format!("{:08X}", number(at + 1)) };
        rows.push((format!("{name:12}{}", registers.map(|r| format!("{r:08X}")).join(" ")), registers));
        at = start + 16;
    }
    rows
}

fn model_image() -> Vec<u8> {
    fs::read("../crates/snp_cpuid_image/stdout").expect("the model's image")
}

/// The lines under each row, joined for each register.
fn words(text: &str) -> BTreeMap<String, String> {
    let (mut found, mut row, mut register) = (BTreeMap::new(), String::new(), String::new());
    for line in text.lines().skip(1).take_while(|line| !line.is_empty()) {
        match line.strip_prefix("    ") {
            None => row = line.split(' ').next().unwrap().to_string(),
            Some(line) if !line.starts_with(' ') => {
                register = format!("{row} {}", &line[..3]);
                found.insert(register.clone(), line[5..].to_string());
            }
            Some(line) => *found.get_mut(&register).expect("a line before") += &line[4..],
        }
    }
    found
}

#[test]
fn rows_are_those_of_the_models_image() {
    let ran = run(&["table", EPYC]);
    assert_eq!((ran.status, ran.err.as_str()), (0, ""));
    let mut lines = ran.text().lines().take_while(|line| !line.is_empty()).filter(|line| !line.starts_with(' '));
    assert_eq!(lines.next(), Some("leaf        EAX      EBX      ECX      EDX"));
    let expected: Vec<String> = rows_of_image(&model_image()).into_iter().map(|(line, _)| line).collect();
    assert_eq!(lines.collect::<Vec<_>>(), expected);
}

#[test]
fn the_image_is_the_models() {
    let folder = Folder::new("image");
    let ran = run(&["image", EPYC, "-o", &folder.path("image")]);
    let note = format!("snp-cpuid: note: fingerprint {MILAN}\n");
    assert_eq!((ran.status, ran.out.len(), ran.err), (0, 0, note));
    assert_eq!(fs::read(folder.path("image")).unwrap(), model_image());
    assert_eq!(folder.names(), ["image"]);
}

/// Names under every feature register of the model's image: set bits named, clear ones not.
#[test]
fn feature_bits_are_named_under_their_row() {
    let ran = run(&["table", EPYC]);
    let words = words(ran.text());
    let mut bits = 0;
    for (line, registers) in rows_of_image(&model_image()) {
        let place = line.split(' ').next().unwrap();
        for f in &FEATURES {
            let name = f.subleaf.map_or(format!("{:08X}", f.leaf), |k| format!("{:08X}.{k:X}", f.leaf));
            if name == place {
                let expected: Vec<&str> = f.bits.iter().filter(|(bit, _)| registers[f.register] & 1 << bit != 0).map(|(_, name)| *name).collect();
                assert_eq!(registers[f.register].count_ones() as usize, expected.len(), "every bit of {place} has a name");
                let there = words.get(&format!("{place} {}", ["EAX", "EBX", "ECX", "EDX"][f.register]));
                assert_eq!(there.map_or(vec![], |text| text.split_whitespace().collect()), expected, "{place}");
                bits += expected.len();
            }
        }
    }
    assert_eq!(bits, 17 + 23 + 13 + 4 + 1 + 3 + 3 + 2 + 9 + 24 + 14 + 2 + 6, "the set bits of the thirteen registers, counted by hand");
}

/// The words of the shipped EPYC 7713, read off its registers by AMD64 APM volume 3; Debian's `cpuid -f` gives the same figures.
#[test]
fn fields_of_an_epyc_7713() {
    let ran = run(&["table", EPYC]);
    let words = words(ran.text());
    for (place, expected) in [
        ("00000000 EAX", "highest standard leaf 0000000D"),
        ("00000000 EBX", "vendor \"AuthenticAMD\" (EBX, EDX, ECX)"),
        ("00000001 EAX", "family 19h, model 01h, stepping 1h, type 0"),
        ("00000001 EBX", "brand index 0, CLFLUSH line 64 bytes, logical processors 128, initial APIC id 0"),
        ("0000000B.0 EAX", "APIC id shift 1"),
        ("0000000B.0 EBX", "logical processors 2"),
        ("0000000B.0 ECX", "level 0: threads of a core"),
        ("0000000B.1 EAX", "APIC id shift 7"),
        ("0000000B.1 EBX", "logical processors 128"),
        ("0000000B.1 ECX", "level 1: cores"),
        ("0000000D.0 ECX", "save area 832 bytes"),
        ("0000000D.2 EAX", "AVX state: 256 bytes at offset 576 (EBX)"),
        ("0000000D.B EAX", "CET_U state: 16 bytes, in XSS"),
        ("0000000D.C EAX", "CET_S state: 24 bytes, in XSS"),
        ("80000001 EAX", "family 19h, model 01h, stepping 1h, type 0"),
        ("80000001 EBX", "brand id 0, package type 4"),
        ("80000002 EAX", "processor name \"AMD EPYC 7713 64\" (EAX to EDX)"),
        ("80000003 EAX", "processor name \"-Core Processor \" (EAX to EDX)"),
        ("80000008 EAX", "physical address 48 bits, virtual address 48 bits"),
        ("80000008 ECX", "processors 128 (NC + 1), APIC core id size 7"),
        ("80000008 EDX", "INVLPGB at most 7 pages, RDPRU at most register 1"),
        ("8000000A EAX", "SVM revision 1"),
        ("8000001E EBX", "threads per unit 2"),
        ("8000001F EBX", "C-bit position 51, physical address bits less 5, VMPLs 4"),
    ] {
        assert_eq!(words.get(place).map(String::as_str), Some(expected), "{place}");
    }
}

/// AMD64 APM volume 3, Fn0000_0001_EAX: an EPYC 9004 (19h, 11h), and a family below Fh, whose extended fields do not count.
#[test]
fn family_and_model_of_other_processors() {
    let folder = Folder::new("signature");
    for (eax, expected) in [(0x00A1_0F11, "family 19h, model 11h, stepping 1h, type 0"), (0x0FFF_0652, "family 06h, model 05h, stepping 2h, type 0")]
    {
        let file = folder.file("pages", set(&with(0x1, 0, 0, |_| eax)));
        assert_eq!(words(run(&["table", &file]).text())["00000001 EAX"], expected);
    }
}

/// The fingerprint of the shipped set's table: what sha256sum gives of the model's image, as tests/unit/test_model_fingerprint.py has it.
const MILAN: &str = "18a69858efbc8500ce6cfc1fe79e04adaaa9e75a36de1f72e208f7402b289eeb";

/// The lines after the rows, but for the fingerprint, which is the library's.
fn summary(pages: &[u8]) -> String {
    let folder = Folder::new("summary");
    let file = folder.file("pages", pages);
    let ran = run(&["table", &file]);
    assert_eq!(ran.status, 0, "{}", ran.err);
    let line = format!("fingerprint    {}\n", snp_cpuid::fingerprint(pages, snp_cpuid::Options::new()).unwrap());
    let text = ran.text().split_once("\n\n").expect("an empty line").1;
    assert!(text.contains(&line), "{text}");
    text.replace(&line, "")
}

/// Document 01: the rows T1, T3, T5, T9 and X1, X2, and the widest mask.
#[test]
fn mask_save_area_and_topology_in_words() {
    assert_eq!(
        summary(&set(&epyc())),
        "rows           29\n\
         combined mask  00001807: x87 SSE AVX CET_U CET_S\n\
         save area      832 bytes\n\
         topology       2 threads per core (APIC id shift 1), 128 logical processors (APIC id shift 7)\n"
    );
    let all = "rows           32\n\
               combined mask  000018E7: x87 SSE AVX opmask ZMM_Hi256 Hi16_ZMM CET_U CET_S\n\
               save area      2432 bytes\n";
    assert!(summary(&set(&rich())).starts_with(all));
    let one_of = |(s, nc, lps, mt, t): (u32, u32, u32, u32, u32)| {
        let mut entries = with(0xD, 0, 0, |_| 3);
        entries.insert((0xD, 1), [0; 4]);
        page_sets::topology(&mut entries, s, nc, lps, mt, t);
        summary(&set(&entries))
    };
    let legacy = "rows           26\ncombined mask  00000003: x87 SSE\nsave area      576 bytes\ntopology       ";
    for (inputs, expected) in [
        ((0, 0, 0, 0, 0), "1 thread per core (APIC id shift 0), 1 logical processor (APIC id shift 0)\n"),
        ((0, 2, 3, 1, 0), "1 thread per core (APIC id shift 0), 3 logical processors (APIC id shift 2)\n"),
        ((7, 127, 128, 1, 1), "2 threads per core (APIC id shift 1), 128 logical processors (APIC id shift 7)\n"),
        ((15, 0, 0, 0, 0), "1 thread per core (APIC id shift 0), 32768 logical processors (APIC id shift 15)\n"),
    ] {
        assert_eq!(one_of(inputs), legacy.to_string() + expected);
    }
}

#[test]
fn secure_avic_shows_its_bit() {
    let folder = Folder::new("secure_avic");
    let file = folder.file("pages", set(&rich()));
    let eax = |arguments: &[&str]| words(run(arguments).text())["8000001F EAX"].clone();
    let without = eax(&["table", &file]);
    assert_eq!(without, "SME SEV PageFlushMsr SEV-ES SEV-SNP VMPL RMPQUERY TscAuxVirtualization");
    assert_eq!(eax(&["table", "--secure-avic", &file]), without + " SecureAvic");
    for command in ["lookup", "to-dump"] {
        let operand = if command == "lookup" { &["8000001F"][..] } else { &[] };
        let run_with = |flags: &[&str]| run(&[&[command, &file], operand, flags].concat()).text().to_lowercase();
        assert!(!run_with(&[]).contains("0400027f"), "{command}");
        assert!(run_with(&["--secure-avic"]).contains("0400027f"), "{command}");
    }
}

#[test]
fn at_most_100_columns_of_plain_ascii_and_every_run_the_same() {
    let folder = Folder::new("columns");
    // bytes of a name string that are no printable ASCII
    let strange = with(0x8000_0002, 0, 0, |_| 0x1BFF_0A41);
    for entries in [epyc(), rich(), strange] {
        let file = folder.file("pages", set(&entries));
        let ran = run(&["table", &file]);
        assert_eq!(ran.status, 0);
        for line in ran.text().lines() {
            assert!(line.len() <= 100 && line.bytes().all(|byte| matches!(byte, b' '..=b'~')) && !line.ends_with(' '), "{line:?}");
        }
        assert_eq!(run(&["table", &file]), ran);
    }
}
