//! The words of cache leaves: places by the public database, figures by Debian's `cpuid` and by the AMD manual's encodings.

use crate::caches::FIELDS;
use crate::debian;
use crate::features::REGISTERS;
use crate::names::database;
use crate::page_sets::{epyc, set, with};
use crate::run::{EPYC, Folder, run};
use std::collections::BTreeMap;

/// Every field stands where the public database has its name, and every field of its leaves is here.
#[test]
fn fields_are_those_of_the_public_database() {
    let leaves = [0x8000_0005, 0x8000_0006, 0x8000_0019, 0x8000_001D];
    let public: BTreeMap<_, _> = database().into_iter().filter(|((leaf, subleaf, ..), _)| leaves.contains(leaf) && *subleaf == 0).collect();
    let ours = FIELDS.iter().map(|(leaf, register, low, high, name)| ((*leaf, 0, REGISTERS[*register].to_string(), *low, *high), name.to_string()));
    assert_eq!(ours.collect::<BTreeMap<_, _>>(), public);
    assert_eq!(public.len(), FIELDS.len());
}

/// The lines under a leaf's rows, without registers.
fn words(file: &str, leaf: &str) -> Vec<String> {
    let ran = run(&["lookup", file, leaf]);
    assert_eq!(ran.status, 0);
    ran.text().lines().filter_map(|line| line.strip_prefix("    ")).map(String::from).collect()
}

/// The caches of an EPYC 7713 by AMD's product page: 32 KiB for data and instructions, 512 KiB L2, 256 MiB L3 in eight parts of 32 MiB.
#[test]
fn caches_of_an_epyc_7713() {
    assert_eq!(
        words(EPYC, "80000005"),
        [
            "EAX  L1 TLBs for pages of 2 and 4 MiB: instruction 64 entries fully associative, data 64 entries",
            "     fully associative",
            "EBX  L1 TLBs for pages of 4 KiB: instruction 64 entries fully associative, data 64 entries fully",
            "     associative",
            "ECX  L1 data cache 32 KiB, 8-way, lines of 64 bytes, 1 per tag",
            "EDX  L1 instruction cache 32 KiB, 8-way, lines of 64 bytes, 1 per tag",
        ]
    );
    let second = words(EPYC, "80000006");
    assert_eq!(
        second[2..],
        [
            "ECX  L2 cache 512 KiB, 8-way, lines of 64 bytes, 1 per tag",
            "EDX  L3 cache at least 262144 KiB, see 8000001Dh, lines of 64 bytes, 1 per tag"
        ]
    );
    let kinds: Vec<String> = words(EPYC, "8000001D").into_iter().filter(|line| line.starts_with("EAX")).collect();
    assert_eq!(
        kinds,
        [
            "EAX  L1 data cache 32 KiB, shared by 2 threads",
            "EAX  L1 instruction cache 32 KiB, shared by 2 threads",
            "EAX  L2 unified cache 512 KiB, shared by 2 threads",
            "EAX  L3 unified cache 32768 KiB, shared by 16 threads",
        ]
    );
    assert_eq!(
        words(EPYC, "8000001D.3")[1..],
        ["EBX  ways 16, line partitions 1, lines of 64 bytes", "ECX  32768 sets", "EDX  WBINVD may leave lower levels"]
    );
}

/// Sizes and ways as Debian's `cpuid` decodes them, over caches of many shapes.
#[test]
fn its_figures_are_debians() {
    if debian::installed().is_none() {
        return;
    }
    let folder = Folder::new("caches");
    for (ways, line, sets, threads) in [(0u32, 63u32, 0u32, 0u32), (7, 63, 63, 1), (1023, 4095, 0xFF, 4095), (15, 127, 32767, 15), (11, 63, 1023, 0)]
    {
        let mut entries = with(0x8000_001D, 2, 0, |eax| eax & !(0xFFF << 14) | threads << 14);
        entries.get_mut(&(0x8000_001D, 2)).unwrap()[1] = ways << 22 | line;
        entries.get_mut(&(0x8000_001D, 2)).unwrap()[2] = sets;
        let file = folder.file("pages", set(&entries));
        let text = debian::text(&file);
        let (_, third) = text.split_once("--- cache 2 ---").expect("the third cache");
        let value = |name: &str| {
            let line = third.lines().find(|line| line.trim_start().starts_with(name)).unwrap_or_else(|| panic!("no {name}"));
            line.split_once("= ").unwrap().1.to_string()
        };
        let words = words(&file, "8000001D.2").join("\n");
        let size: u64 = value("(synth size)").split(' ').next().unwrap().parse().unwrap();
        assert!(words.contains(&format!("unified cache {} KiB", size / 1024)), "{words}: {size}");
        assert!(words.contains(&format!("shared by {} thread", threads + 1)) && value("extra cores").ends_with(&format!("({threads})")));
        assert!(words.contains(&format!("ways {}, ", ways + 1)) && value("number of ways").ends_with(&format!("({})", ways + 1)), "{words}");
        assert!(words.contains(&format!("{} sets", sets + 1)) && value("number of sets").starts_with(&(sets + 1).to_string()));
    }
}

/// Encodings of associativity that no shipped set has: AMD64 APM volume 3, tables of Fn8000_0005 and Fn8000_0006.
#[test]
fn associativity() {
    let folder = Folder::new("associativity");
    let ecx = |leaf: u32, value: u32, shift: u32, bits: u32| {
        let file = folder.file("pages", set(&with(leaf, 0, 2, |ecx| ecx & !(bits << shift) | value << shift)));
        words(&file, &format!("{leaf:X}")).into_iter().find(|line| line.starts_with("ECX")).unwrap()
    };
    for (value, ways) in [(0, "reserved"), (1, "direct mapped"), (2, "2-way"), (12, "12-way"), (0xFE, "254-way"), (0xFF, "fully associative")] {
        assert_eq!(ecx(0x8000_0005, value, 16, 0xFF), format!("ECX  L1 data cache 32 KiB, {ways}, lines of 64 bytes, 1 per tag"));
    }
    let ways = [
        "off",
        "direct mapped",
        "2-way",
        "3-way",
        "4-way",
        "6-way",
        "8-way",
        "reserved",
        "16-way",
        "see 8000001Dh",
        "32-way",
        "48-way",
        "64-way",
        "96-way",
        "128-way",
        "fully associative",
    ];
    for (value, ways) in (0..).zip(ways) {
        assert_eq!(ecx(0x8000_0006, value, 12, 0xF), format!("ECX  L2 cache 512 KiB, {ways}, lines of 64 bytes, 1 per tag"));
    }
    let mut none = epyc();
    none.insert((0x8000_001D, 3), [0; 4]);
    assert_eq!(words(&folder.file("pages", set(&none)), "8000001D.3"), ["EAX  no cache"]);
}
