//! What cargo makes of the crate beside its own tests: the library without std, and the example, which is run.

use std::fs;
use std::path::Path;
use std::process::{Command, Output};

fn cargo(words: &[&str]) -> Output {
    let target = Path::new(env!("CARGO_TARGET_TMPDIR")).join("builds");
    let ran = Command::new(env!("CARGO")).args(words).env("CARGO_TARGET_DIR", target).output().expect("cargo");
    assert!(ran.status.success(), "{}", String::from_utf8_lossy(&ran.stderr));
    ran
}

/// Neither std nor an allocator is needed.
#[test]
fn the_library_without_std() {
    cargo(&["build", "--offline", "--quiet", "--lib", "--no-default-features"]);
    // what needs them is left out, and nothing else asks for them
    for file in fs::read_dir("src").unwrap().map(|entry| entry.unwrap().path()).filter(|path| path.is_file()) {
        let text = fs::read_to_string(&file).unwrap();
        assert!(!text.lines().any(|line| line.starts_with("use std::") || line.contains("extern crate")), "{}", file.display());
    }
}

/// A guest that is kept on its own server's table, and does not move to a server without FMA, bit 12 of 1.ECX.
#[test]
fn the_example_runs() {
    let mut less = fs::read("../tests/data/epyc-milan.pages").unwrap();
    // leaf 1 is the second entry of page 0
    assert_eq!(less[64..68], 1u32.to_le_bytes());
    less[64 + 32 + 1] &= !0x10;
    let other = Path::new(env!("CARGO_TARGET_TMPDIR")).join("without_fma.pages");
    fs::write(&other, less).unwrap();
    let ran = cargo(&["run", "--offline", "--quiet", "--example", "keep", "--", "../tests/data/epyc-milan.pages", other.to_str().unwrap()]);
    let text = String::from_utf8(ran.stdout).unwrap();
    // 29 rows as in the model's image; x87, SSE, YMM, CET_U and CET_S; the sizes that this processor itself reported; 512 and 64 bytes of x87 alone
    let expected = "\
29 rows, states 1807
save area 576 bytes
save area 832 bytes, compacted 848
x2APIC number 5
refusal 13: XCR0 lacks bit 0 (x87) or has a bit that D.0.EAX lacks, or XSS has a bit that D.1.ECX lacks
carried: the table is at least the other
to the other server: 1h.ECX lacks a feature bit, is a smaller save area, or differs where it must be equal
";
    assert_eq!(text, expected);
}
