//! The bits that `compare` marks: hidden from the machine's own glibc, its libm gives other results.

use crate::arithmetic::chosen_by;
use crate::features::FEATURES;
use std::process::Command;

/// The bits that are marked, by library: those of the sources that arithmetic.rs names.
#[test]
fn every_library_has_its_bits() {
    for (library, names) in [("libm", ["FMA", "AVX2", "FMA4"]), ("libmvec", ["FMA", "AVX2", "AVX512DQ"]), ("OpenBLAS", ["AVX", "AVX2", "AVX512VL"])] {
        let bits = FEATURES.iter().flat_map(|register| register.bits_of(u32::MAX));
        let marked: Vec<&str> = bits.filter(|bit| chosen_by(bit).contains(&library)).map(|bit| bit.name).collect();
        assert_eq!(marked, names, "{library}");
    }
}

/// Whether this machine has the bits, and a glibc that can be told to hide them: Debian's python3 is a program that uses it.
fn can_be_tried() -> bool {
    let flags = std::fs::read_to_string("/proc/cpuinfo").unwrap_or_default();
    let flags: Vec<&str> = flags.lines().find(|line| line.starts_with("flags")).unwrap_or_default().split_whitespace().collect();
    let glibc = Command::new("ldd").arg("--version").output().is_ok_and(|ran| String::from_utf8_lossy(&ran.stdout).contains("GLIBC"));
    glibc && flags.contains(&"fma") && flags.contains(&"avx2") && Command::new("python3").arg("--version").output().is_ok()
}

/// The bits of exp, sin and log at many places, with these bits hidden; older versions of glibc spell them otherwise, and names that it does not know
/// change nothing.
fn results(hidden: &str) -> Vec<u8> {
    let program = "import math; print([f(0.1 + i / 777).hex() for i in range(2000) for f in (math.exp, math.sin, math.log)])";
    let ran = Command::new("python3").args(["-c", program]).env("GLIBC_TUNABLES", format!("glibc.cpu.hwcaps={hidden}")).output().unwrap();
    assert!(ran.status.success());
    ran.stdout
}

#[test]
fn hiding_the_marked_bits_changes_results() {
    if !can_be_tried() {
        return;
    }
    let hidden = results("-FMA,-AVX2,-FMA_Usable,-AVX2_Usable");
    assert_eq!(results(""), results("-SSE4_2,-POPCNT"), "other bits change nothing");
    assert_ne!(results(""), hidden);
    assert_eq!(hidden, results("-FMA,-AVX2,-FMA_Usable,-AVX2_Usable"));
}

/// examples/last_decimal.sh: on two servers the sheet has two figures, under the pool's table one, each with the fingerprint of its table.
#[test]
fn the_last_decimal_stays_under_the_pools_table() {
    if !can_be_tried() {
        return;
    }
    let ran = Command::new("../examples/last_decimal.sh").arg(env!("CARGO_BIN_EXE_snp-cpuid")).output().unwrap();
    let text = String::from_utf8(ran.stdout).unwrap();
    let of = |name: &str| {
        let (_, rest) = text.split_once(&format!("{name}: ")).expect("a figure");
        let mut lines = rest.lines();
        (lines.next().unwrap().to_string(), lines.next().unwrap().trim().to_string())
    };
    let (a, b, pooled) = (of("server A"), of("server B"), of("server A, pool's table"));
    assert!(ran.status.success() && a.0 != b.0 && a.1 != b.1, "{text}");
    assert_eq!(pooled, of("server B, pool's table"));
    assert!(text.starts_with("yes: a running guest of A may move to B, and programs that start there may see more: FMA and AVX2."), "{text}");
}
