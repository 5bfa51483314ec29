//! `guest`, and `lookup` with a processor: document 02, P3.

use crate::run::{EPYC, run};

/// x87 and SSE state alone: the pages report more in D.0.EBX and D.1.EBX, 340h and 350h.
const PROCESSOR: &[&str] = &["--apic", "5", "--xcr0", "3", "--xss", "0x800"];

fn with<'a>(start: &[&'a str], rest: &[&'a str]) -> Vec<&'a str> {
    [start, rest].concat()
}

/// The lines that differ from those of `table` are those of the five rows.
#[test]
fn in_the_form_of_table() {
    let table = run(&["table", EPYC]);
    let seen = run(&with(&["guest", EPYC], PROCESSOR));
    assert_eq!((seen.status, seen.err.as_str()), (0, ""));
    let new: Vec<&str> = seen.text().lines().filter(|line| !table.text().lines().any(|old| old == *line)).collect();
    assert_eq!(
        new,
        [
            "00000001    00A00F11 05800800 F6DA3203 178BFBFF",
            "    EBX  brand index 0, CLFLUSH line 64 bytes, logical processors 128, initial APIC id 5",
            "    ECX  SSE3 PCLMULQDQ SSSE3 FMA CMPXCHG16B PCID SSE41 SSE42 MOVBE POPCNT AES XSAVE AVX F16C RDRAND",
            "         Hypervisor",
            "0000000B.0  00000001 00000002 00000100 00000005",
            "0000000B.1  00000007 00000080 00000201 00000005",
            "0000000D.0  00000007 00000240 00000340 00000000",
            "0000000D.1  0000000B 00000250 00001800 00000000",
        ]
    );
    assert_eq!(seen.text().lines().count(), table.text().lines().count());
}

#[test]
fn lookup_takes_the_same_options() {
    let found = run(&with(&["lookup", EPYC, "D.1"], PROCESSOR));
    assert_eq!((found.status, found.text().lines().nth(1).unwrap()), (0, "0000000D.1  0000000B 00000250 00001800 00000000"));
    // numbers with and without 0x, and behind =
    for processor in [&["--apic=5", "--xcr0=0x3", "--xss=800"], &["--apic=0X5", "--xcr0=03", "--xss=0x0000000000000800"]] {
        assert_eq!(run(&with(&["lookup", EPYC, "D.1"], processor)), found);
    }
    // what the pages' own processor reported, with OSXSAVE on
    let own = ["--apic", "0", "--xcr0", "7", "--xss", "800", "--osxsave"];
    for leaf in ["1", "D.0", "D.1"] {
        assert_eq!(run(&with(&["lookup", EPYC, leaf], &own)), run(&["lookup", EPYC, leaf]));
    }
    let absent = run(&with(&["lookup", EPYC, "D.9"], PROCESSOR));
    assert_eq!((absent.status, absent.line()), (3, "leaf 0000000D.9 is not in the table: leaf 0000000D has subleaves 0, 1, 2, B, C"));
}

#[test]
fn refusal_13() {
    let why = "XCR0 lacks bit 0 (x87) or has a bit that D.0.EAX lacks, or XSS has a bit that D.1.ECX lacks";
    for (xcr0, xss, numbers_told, change) in [
        ("6", "0", "XCR0 6 lacks bit 0 (x87)", "XCR0 7 and XSS 0"),
        ("E7", "0", "XCR0 E7 has bits 5 (opmask), 6 (ZMM_Hi256), 7 (Hi16_ZMM) beyond D.0.EAX 7", "XCR0 7 and XSS 0"),
        ("100000007", "0", "XCR0 100000007 has bit 32 beyond D.0.EAX 7", "XCR0 7 and XSS 0"),
        ("7", "2000", "XSS 2000 has bit 13 beyond the table's XSS 1800", "XCR0 7 and XSS 0"),
        ("7", "0x8000000000000800", "XSS 8000000000000800 has bit 63 beyond the table's XSS 1800", "XCR0 7 and XSS 800"),
    ] {
        let numbers = ["--apic", "0", "--xcr0", xcr0, "--xss", xss];
        for start in [&["guest", EPYC][..], &["lookup", EPYC, "1"]] {
            let ran = run(&with(start, &numbers));
            assert_eq!((ran.status, ran.line()), (1, format!("{EPYC}: refusal 13: {why}").as_str()));
            assert_eq!(ran.notes(), [numbers_told, &format!("needs {change}")]);
        }
    }
}

#[test]
fn bad_usage() {
    let cases: [(&[&str], &str); 9] = [
        (&["guest", EPYC], "--apic N is missing"),
        (&["guest", EPYC, "--apic", "1", "--xss", "0"], "--xcr0 X is missing"),
        (&["guest", EPYC, "--apic"], "--apic needs a hexadecimal number"),
        (&["guest", EPYC, "--apic", "1", "--apic", "2"], "--apic is given twice"),
        (&["guest", EPYC, "--apic", "100000000", "--xcr0", "1", "--xss", "0"], "--apic '100000000' is no hexadecimal number of up to 32 bits"),
        (&["guest", EPYC, "--apic", "1", "--xcr0", "1g", "--xss", "0"], "--xcr0 '1g' is no hexadecimal number of up to 64 bits"),
        (&["guest", EPYC, "--apic", "1", "--xcr0", "1", "--xss", "10000000000000000"], "--xss '10000000000000000' is no hexadecimal number"),
        (&["lookup", EPYC, "1", "--osxsave"], "--apic N is missing"),
        (&["lookup", EPYC, "1", "--apic", "1", "--xcr0", ""], "--xcr0 '' is no hexadecimal number"),
    ];
    for (arguments, words) in cases {
        let ran = run(arguments);
        assert_eq!(ran.status, 2, "{arguments:?}");
        assert!(ran.line().contains(words), "{arguments:?}: {}", ran.line());
        assert!(ran.line().contains("--help')"), "says where help is: {}", ran.line());
    }
}
