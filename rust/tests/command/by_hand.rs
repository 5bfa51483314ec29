//! Pages made by hand: `set`, `from-dump --guest`, and `to-dump` of refused pages.

use crate::json_text::jq;
use crate::page_sets::{Entries, epyc, page, rich, set, topology, unclean, with, without};
use crate::run::{EPYC, Folder, run};
use snp_cpuid::{Options, build};
use std::fs;

/// The notes of a refusal as arguments of `set`: registers that would be accepted, and zeros in reserved bytes.
fn advice(file: &str) -> Option<Vec<String>> {
    let ran = run(&["table", file, "--json"]);
    let filter = r#".refusal | [(.change + .needs | if startswith("zeros in those bytes") then "reserved=0" else empty end)]
        + [.registers[] | "\(.leaf)\(if .subleaf then ".\(.subleaf)" else "" end).\(.register)=\(.value)"] | join(" ")"#;
    Some(jq(&ran.out, filter)?.trim_matches('"').split(' ').filter(|word| !word.is_empty()).map(String::from).collect())
}

fn changed(file: &str, changes: &[String], out: &str) -> crate::run::Ran {
    run(&[&["set".to_string(), file.to_string()], changes, &["-o".to_string(), out.to_string()]].concat())
}

/// What the notes after a refusal say is accepted is accepted, once `set` has done it: topologies, states, INVLPGB, sizes and reserved bytes.
#[test]
fn the_advice_after_a_refusal_can_be_followed() {
    let folder = Folder::new("set_advice");
    let mut sets: Vec<Vec<u8>> = vec![
        set(&with(0x8000_0008, 0, 1, |ebx| ebx & !8)),
        set(&with(0xD, 2, 0, |_| u32::MAX)),
        set(&without(0xD, 11)),
        set(&with(0x8000_001E, 0, 1, |ebx| ebx | 0xFF00)),
        unclean(&with(0x8000_0008, 0, 1, |ebx| ebx & !8), 0, 1, 2),
    ];
    for (s, nc, lps, mt, t) in [(6, 31, 32, 1, 1), (0, 3, 1, 0, 0), (7, 200, 64, 0, 9), (0, 255, 200, 1, 1), (3, 0, 1, 1, 3)] {
        let mut entries = rich();
        topology(&mut entries, s, nc, lps, mt, t);
        entries.get_mut(&(0x8000_0008, 0)).unwrap()[1] &= !8;
        sets.push(set(&entries));
    }
    let out = folder.path("out");
    for pages in sets {
        assert!(build(&pages, Options::new()).is_err());
        let file = folder.file("pages", &pages);
        let Some(advice) = advice(&file) else { return };
        assert!(!advice.is_empty());
        let ran = changed(&file, &advice, &out);
        assert_eq!(ran.status, 0, "{}", ran.err);
        assert!(build(&fs::read(&out).unwrap(), Options::new()).is_ok(), "{advice:?}");
        assert!(ran.notes().last().unwrap().starts_with("made by hand, and accepted: "), "{}", ran.err);
        assert_eq!(ran.notes().len(), advice.len() + 1, "each change is told: {}", ran.err);
    }
}

/// The register of the entry that the table takes, in every way to write a number; further entries of its row stay.
#[test]
fn one_register_of_the_first_entry() {
    let folder = Folder::new("set_one");
    let mut twice = epyc();
    twice.insert((0x5, 9), [1, 2, 3, 4]);
    let file = folder.file("pages", set(&twice));
    let expected = {
        let mut entries = twice.clone();
        entries.get_mut(&(0x5, 0)).unwrap()[1] = 0xAB;
        set(&entries)
    };
    for change in ["5.EBX=AB", "0x5.ebx=0xab", "00000005.EBX=000000AB", "5h.Ebx=ABh", "5.0.EBX=ab"] {
        let ran = run(&["set", &file, change, "-o", "-"]);
        assert_eq!((ran.status, &ran.out), (0, &expected), "{change}");
        assert_eq!(ran.notes()[0], "00000005.EBX is 000000AB and was 00000040");
    }
    // a leaf that no table reads, and one with subleaves
    let read = |change: &str, leaf: u32, subleaf: u32, register: usize| {
        let out = run(&["set", EPYC, change, "-o", "-"]).out;
        let entries = run_entries(&out);
        entries[&(leaf, subleaf)][register]
    };
    assert_eq!((read("0.EAX=7", 0, 0, 0), read("8000001D.3.EDX=9", 0x8000_001D, 3, 3)), (7, 9));
    let same = run(&["set", EPYC, "5.EAX=40", "-o", "-"]);
    assert_eq!((same.out, same.err.lines().next()), (fs::read(EPYC).unwrap(), Some("snp-cpuid: note: nothing is changed")));
}

fn run_entries(pages: &[u8]) -> Entries {
    let word = |at: usize| u32::from_le_bytes(pages[at..at + 4].try_into().unwrap());
    let places = (0..pages.len() / 4096).flat_map(|page| (0..word(4096 * page) as usize).map(move |entry| 4096 * page + 16 + 48 * entry));
    places.map(|at| ((word(at), word(at + 4)), [24, 28, 32, 36].map(|register| word(at + register)))).collect()
}

/// A row that is not there is added behind the last entry of its page, and a full page has no room.
#[test]
fn rows_that_are_not_there_are_added() {
    let folder = Folder::new("set_added");
    let out = folder.path("out");
    let file = folder.file("pages", set(&without(0xD, 11)));
    let changes = ["D.B.EAX=10", "D.B.ECX=1"].map(String::from);
    let ran = changed(&file, &changes, &out);
    let notes = ["0000000D.B.EAX is 00000010 in an entry that was not there", "0000000D.B.ECX is 00000001 and was 00000000"];
    assert_eq!((ran.status, &ran.notes()[..2]), (0, &notes[..]));
    assert_eq!(run(&["table", &out]).out, run(&["table", EPYC]).out);
    // a single page gets a second one
    let others: Entries = epyc().into_iter().filter(|(place, _)| place.0 != 0xD).collect();
    assert_eq!(changed(&folder.file("pages", page(&others)), &["D.0.EAX=3".into()], &out).status, 0);
    assert_eq!(fs::read(&out).unwrap().len(), 8192);
    let full: Entries = (0..64).map(|k| ((0x4000_0000, k), [1; 4])).collect();
    let file = folder.file("full", [page(&full), set(&epyc())[4096..].to_vec()].concat());
    let ran = changed(&file, &["1.EAX=1".into()], &folder.path("none"));
    assert_eq!((ran.status, ran.line()), (2, format!("{file}: page 0 has no room for an entry of leaf 00000001.0").as_str()));
    assert!(!fs::exists(folder.path("none")).unwrap());
}

#[test]
fn changes_that_are_none() {
    let folder = Folder::new("set_wrong");
    let out = folder.path("out");
    for wrong in
        ["", "5", "5.EAX", "5=1", "5.EEX=1", "5.EAX=", "5.EAX=g", "5.EAX=100000000", "5.1.2.EAX=1", "EAX=1", ".EAX=1", "x.EAX=1", "reserved=1"]
    {
        let ran = changed(EPYC, &[wrong.into()], &out);
        assert_eq!(ran.status, 2, "{wrong}");
        assert!(ran.line().starts_with(&format!("set: '{wrong}' is no LEAF[.SUB].REG=VALUE, ")), "{}", ran.err);
    }
    // pages that have no entries to be changed
    let mut counted = set(&epyc());
    counted[0] = 65;
    for (pages, number) in [(counted, 2), (set(&epyc())[..8191].to_vec(), 1)] {
        let ran = changed(&folder.file("pages", pages), &["5.EAX=1".into()], &out);
        assert!(ran.status == 1 && ran.line().contains(&format!(": refusal {number}: ")), "{}", ran.err);
    }
    assert_eq!(folder.names(), ["pages"]);
}

/// A host's dump with counts that no guest has: with the numbers of a guest it is accepted, and its table tells the guest's processors.
#[test]
fn a_hosts_dump_for_a_guest_of_some_size() {
    let folder = Folder::new("guest_size");
    let mut host = epyc();
    topology(&mut host, 6, 31, 32, 1, 1);
    host.get_mut(&(0x1, 0)).unwrap()[1] |= 0x0500_0000;
    host.get_mut(&(0x8000_001E, 0)).unwrap()[0] = 5;
    let dump = folder.file("dump", run(&["to-dump", &folder.file("host", set(&host))]).out);
    let out = folder.path("out");
    for (size, processors, threads, shift, l3) in [
        ("1x1", 1, 1, 0, 1),
        ("1x2", 2, 2, 1, 2),
        ("4x2", 8, 2, 3, 8),
        ("8x1", 8, 1, 3, 8),
        ("3x1", 3, 1, 2, 3),
        ("64x2", 128, 2, 7, 16),
        ("127x2", 254, 2, 8, 16),
        ("128x2", 256, 2, 8, 16),
        ("16384x2", 32768, 2, 15, 16),
    ] {
        let ran = run(&["from-dump", &dump, "--guest", size, "-o", &out]);
        assert_eq!(ran.status, 0, "{}", ran.err);
        let told = format!("made by hand, for a guest of {processors} processor{}, ", if processors == 1 { "" } else { "s" });
        assert!(ran.notes().iter().any(|note| note.starts_with(&told)), "{}", ran.err);
        assert!(ran.notes().iter().any(|note| note.starts_with("00000001.EBX is 00")), "no APIC number: {}", ran.err);
        let table = build(&fs::read(&out).unwrap(), Options::new()).unwrap_or_else(|refusal| panic!("{size}: {refusal}"));
        let [thread, core] = [0, 1].map(|k| table.row(0xB, Some(k)).unwrap());
        assert_eq!((thread.ebx, core.ebx, core.eax), (threads, processors, shift), "{size}");
        assert_eq!((table.row(1, None).unwrap().ebx >> 24, table.row(0x8000_001E, None).unwrap().eax), (0, 0));
        let sharing = |k| (table.row(0x8000_001D, Some(k)).unwrap().eax >> 14 & 0xFFF) + 1;
        assert_eq!(([0, 1, 2].map(sharing), sharing(3)), ([threads; 3], l3), "{size}");
        // features are the host's
        assert_eq!(table.row(7, Some(0)), build(&set(&epyc()), Options::new()).unwrap().row(7, Some(0)));
    }
    // a list of KVM without leaf Bh gets one
    let mut bare = host.clone();
    bare.retain(|place, _| place.0 != 0xB);
    assert_eq!(run(&["from-dump", &folder.file("bare", set(&bare)), "--guest", "4x2", "-o", &out]).status, 0);
    assert!(build(&fs::read(&out).unwrap(), Options::new()).is_ok());
    for wrong in ["", "4", "4x", "x2", "4x3", "0x1", "4x0", "300x1", "32768x2", "4X2", "-4x2", "4x2x1", "99999999999x1"] {
        let ran = run(&["from-dump", &dump, &format!("--guest={wrong}"), "-o", &out]);
        assert!(ran.status == 2 && ran.line().starts_with(&format!("from-dump: --guest '{wrong}' is no CORESxTHREADS, ")), "{}", ran.err);
    }
}

/// Entries of refused pages go into a dump and back: the same refusal, and the same entries.
#[test]
fn refused_pages_as_a_dump() {
    let folder = Folder::new("refused_dump");
    for (entries, number) in [(with(0x8000_0008, 0, 1, |ebx| ebx & !8), 4), (without(0x8000_001A, 0), 3), (with(0xD, 2, 0, |_| u32::MAX), 5)] {
        let file = folder.file("pages", set(&entries));
        let ran = run(&["to-dump", &file]);
        let note = format!("snp-cpuid: note: {file}: refusal {number}: ");
        assert!(
            ran.status == 0 && ran.err.starts_with(&note) && ran.err.ends_with("; these are its entries as they stand, and no table\n"),
            "{}",
            ran.err
        );
        assert_eq!(ran.text().lines().count(), entries.len() + 1);
        let back = run(&["from-dump", &folder.file("dump", &ran.out), "-o", &folder.path("again")]);
        assert_eq!(back.status, 0);
        let kept: Entries = entries.into_iter().filter(|(place, _)| crate::pages::read_by_table(place.0, place.1)).collect();
        assert_eq!(run_entries(&fs::read(folder.path("again")).unwrap()), kept);
        // in a file too, and not where there is nothing to be read
        assert_eq!(run(&["to-dump", &file, "-o", &folder.path("out")]).out, b"");
        assert_eq!(fs::read(folder.path("out")).unwrap(), ran.out);
    }
    let cut = folder.file("cut", &set(&epyc())[..8191]);
    assert!(run(&["to-dump", &cut, "-o", &folder.path("none")]).line().contains(": refusal 1: "));
    assert!(!fs::exists(folder.path("none")).unwrap());
}
