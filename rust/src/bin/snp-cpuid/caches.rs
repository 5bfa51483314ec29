//! The leaves of caches and TLBs in words: 80000005h, 80000006h, 80000019h and 8000001Dh (AMD64 APM volume 3). Fields have the names of the public
//! database, against which tests/command/caches.rs holds their places.

use crate::features::{EAX, EBX, ECX, EDX};
use crate::words::registers;
use snp_cpuid::Row;

/// A field: leaf, register, lowest and highest bit, and name.
type Field = (u32, usize, u32, u32, &'static str);

pub const FIELDS: [Field; 51] = [
    (0x8000_0005, EAX, 0, 7, "l1_itlb_2m_4m_nentries"),
    (0x8000_0005, EAX, 8, 15, "l1_itlb_2m_4m_assoc"),
    (0x8000_0005, EAX, 16, 23, "l1_dtlb_2m_4m_nentries"),
    (0x8000_0005, EAX, 24, 31, "l1_dtlb_2m_4m_assoc"),
    (0x8000_0005, EBX, 0, 7, "l1_itlb_4k_nentries"),
    (0x8000_0005, EBX, 8, 15, "l1_itlb_4k_assoc"),
    (0x8000_0005, EBX, 16, 23, "l1_dtlb_4k_nentries"),
    (0x8000_0005, EBX, 24, 31, "l1_dtlb_4k_assoc"),
    (0x8000_0005, ECX, 0, 7, "l1_dcache_line_size"),
    (0x8000_0005, ECX, 8, 15, "l1_dcache_nlines"),
    (0x8000_0005, ECX, 16, 23, "l1_dcache_assoc"),
    (0x8000_0005, ECX, 24, 31, "l1_dcache_size_kb"),
    (0x8000_0005, EDX, 0, 7, "l1_icache_line_size"),
    (0x8000_0005, EDX, 8, 15, "l1_icache_nlines"),
    (0x8000_0005, EDX, 16, 23, "l1_icache_assoc"),
    (0x8000_0005, EDX, 24, 31, "l1_icache_size_kb"),
    (0x8000_0006, EAX, 0, 11, "l2_itlb_2m_4m_nentries"),
    (0x8000_0006, EAX, 12, 15, "l2_itlb_2m_4m_assoc"),
    (0x8000_0006, EAX, 16, 27, "l2_dtlb_2m_4m_nentries"),
    (0x8000_0006, EAX, 28, 31, "l2_dtlb_2m_4m_assoc"),
    (0x8000_0006, EBX, 0, 11, "l2_itlb_4k_nentries"),
    (0x8000_0006, EBX, 12, 15, "l2_itlb_4k_assoc"),
    (0x8000_0006, EBX, 16, 27, "l2_dtlb_4k_nentries"),
    (0x8000_0006, EBX, 28, 31, "l2_dtlb_4k_assoc"),
    (0x8000_0006, ECX, 0, 7, "l2_line_size"),
    (0x8000_0006, ECX, 8, 11, "l2_nlines"),
    (0x8000_0006, ECX, 12, 15, "l2_assoc"),
    (0x8000_0006, ECX, 16, 31, "l2_size_kb"),
    (0x8000_0006, EDX, 0, 7, "l3_line_size"),
    (0x8000_0006, EDX, 8, 11, "l3_nlines"),
    (0x8000_0006, EDX, 12, 15, "l3_assoc"),
    (0x8000_0006, EDX, 18, 31, "l3_size_range"),
    (0x8000_0019, EAX, 0, 11, "l1_itlb_1g_nentries"),
    (0x8000_0019, EAX, 12, 15, "l1_itlb_1g_assoc"),
    (0x8000_0019, EAX, 16, 27, "l1_dtlb_1g_nentries"),
    (0x8000_0019, EAX, 28, 31, "l1_dtlb_1g_assoc"),
    (0x8000_0019, EBX, 0, 11, "l2_itlb_1g_nentries"),
    (0x8000_0019, EBX, 12, 15, "l2_itlb_1g_assoc"),
    (0x8000_0019, EBX, 16, 27, "l2_dtlb_1g_nentries"),
    (0x8000_0019, EBX, 28, 31, "l2_dtlb_1g_assoc"),
    (0x8000_001D, EAX, 0, 4, "cache_type"),
    (0x8000_001D, EAX, 5, 7, "cache_level"),
    (0x8000_001D, EAX, 8, 8, "cache_self_init"),
    (0x8000_001D, EAX, 9, 9, "fully_associative"),
    (0x8000_001D, EAX, 14, 25, "num_threads_sharing"),
    (0x8000_001D, EBX, 0, 11, "cache_linesize"),
    (0x8000_001D, EBX, 12, 21, "cache_npartitions"),
    (0x8000_001D, EBX, 22, 31, "cache_nways"),
    (0x8000_001D, ECX, 0, 30, "cache_nsets"),
    (0x8000_001D, EDX, 0, 0, "wbinvd_rll_no_guarantee"),
    (0x8000_001D, EDX, 1, 1, "ll_inclusive"),
];

/// The field of this name in a row.
fn cut(row: &Row, name: &str) -> u32 {
    let found = FIELDS.iter().find(|(leaf, .., own)| (*leaf, *own) == (row.leaf, name));
    let (_, register, low, high, _) = *found.expect("every field that is asked for is in the table");
    registers(row)[register] >> low & (u32::MAX >> (31 - (high - low)))
}

/// The words of a row; nothing where it is of another leaf.
pub fn words(row: &Row) -> Vec<(usize, String)> {
    match row.leaf {
        0x8000_0005 => vec![
            (EAX, tlbs(row, "l1", "2m_4m", eight_bits)),
            (EBX, tlbs(row, "l1", "4k", eight_bits)),
            (ECX, first_level(row, "data", "l1_dcache")),
            (EDX, first_level(row, "instruction", "l1_icache")),
        ],
        0x8000_0006 => vec![
            (EAX, tlbs(row, "l2", "2m_4m", four_bits)),
            (EBX, tlbs(row, "l2", "4k", four_bits)),
            (ECX, format!("L2 cache {} KiB, {}", cut(row, "l2_size_kb"), lines(row, "l2", four_bits))),
            (EDX, format!("L3 cache at least {} KiB, {}", 512 * cut(row, "l3_size_range"), lines(row, "l3", four_bits))),
        ],
        0x8000_0019 => vec![(EAX, tlbs(row, "l1", "1g", four_bits)), (EBX, tlbs(row, "l2", "1g", four_bits))],
        0x8000_001D => cache(row),
        _ => vec![],
    }
}

/// The TLBs of a level for pages of some sizes.
fn tlbs(row: &Row, level: &str, pages: &str, ways: fn(u32) -> String) -> String {
    let of = |kind: &str| {
        let part = |what: &str| cut(row, &format!("{level}_{kind}tlb_{pages}_{what}"));
        format!("{} entries {}", part("nentries"), ways(part("assoc")))
    };
    let sizes = match pages {
        "4k" => "4 KiB",
        "2m_4m" => "2 and 4 MiB",
        _ => "1 GiB",
    };
    format!("{} TLBs for pages of {sizes}: instruction {}, data {}", level.to_uppercase(), of("i"), of("d"))
}

fn first_level(row: &Row, kind: &str, name: &str) -> String {
    format!("L1 {kind} cache {} KiB, {}", cut(row, &format!("{name}_size_kb")), lines(row, name, eight_bits))
}

/// Associativity, line size and lines per tag.
fn lines(row: &Row, name: &str, ways: fn(u32) -> String) -> String {
    let part = |what: &str| cut(row, &format!("{name}_{what}"));
    format!("{}, lines of {} bytes, {} per tag", ways(part("assoc")), part("line_size"), part("nlines"))
}

/// Associativity as 80000005h has it.
fn eight_bits(value: u32) -> String {
    match value {
        0 => "reserved".into(),
        1 => "direct mapped".into(),
        0xFF => "fully associative".into(),
        ways => format!("{ways}-way"),
    }
}

/// Associativity as 80000006h and 80000019h have it: the least number of ways.
fn four_bits(value: u32) -> String {
    let ways = match value {
        0 => return "off".into(),
        1 => return "direct mapped".into(),
        2..=4 => value,
        5 => 6,
        6 => 8,
        8 => 16,
        9 => return "see 8000001Dh".into(),
        0xA => 32,
        0xB => 48,
        0xC => 64,
        0xD => 96,
        0xE => 128,
        0xF => return "fully associative".into(),
        _ => return "reserved".into(),
    };
    format!("{ways}-way")
}

/// A cache of 8000001Dh. Its counts are less one.
fn cache(row: &Row) -> Vec<(usize, String)> {
    let kind = match cut(row, "cache_type") {
        0 => return vec![(EAX, "no cache".into())],
        1 => "data",
        2 => "instruction",
        3 => "unified",
        _ => "reserved",
    };
    let [ways, partitions, line, sets] =
        ["cache_nways", "cache_npartitions", "cache_linesize", "cache_nsets"].map(|name| u64::from(cut(row, name)) + 1);
    let kib = u128::from(ways) * u128::from(partitions) * u128::from(line) * u128::from(sets) / 1024;
    let whole = if cut(row, "fully_associative") == 1 { ", fully associative" } else { "" };
    let threads = crate::words::counted(cut(row, "num_threads_sharing") + 1, "thread");
    let flags = [("wbinvd_rll_no_guarantee", "WBINVD may leave lower levels"), ("ll_inclusive", "inclusive of lower levels")];
    let flags: Vec<&str> = flags.into_iter().filter(|(name, _)| cut(row, name) == 1).map(|(_, words)| words).collect();
    vec![
        (EAX, format!("L{} {kind} cache {kib} KiB{whole}, shared by {threads}", cut(row, "cache_level"))),
        (EBX, format!("ways {ways}, line partitions {partitions}, lines of {line} bytes")),
        (ECX, format!("{sets} sets")),
        (EDX, flags.join(", ")),
    ]
}
