//! Debian's `cpuid -f` decodes what `to-dump` prints, and its words must be the table's bits. Where `cpuid` is not installed the test says so.

use crate::features::{EAX, EBX, ECX, EDX, FEATURES};
use crate::page_sets::{Entries, epyc, rich, set};
use crate::run::{EPYC, Folder, run};
use snp_cpuid::{Options, Table, build};
use std::collections::BTreeMap;
use std::io::Write;
use std::process::Command;

/// The lines of `cpuid -f` for feature bits: the heading over them, the row and register, and our name and its words for each.
type Section = (&'static str, u32, Option<u32>, usize, &'static [(&'static str, &'static str)]);

#[rustfmt::skip]
const SECTIONS: [Section; 13] = [
    ("feature information (1/edx)", 0x1, None, EDX, &[
        ("FPU", "x87 FPU on chip"), ("VME", "VME: virtual-8086 mode enhancement"), ("DE", "DE: debugging extensions"),
        ("PSE", "PSE: page size extensions"), ("TSC", "TSC: time stamp counter"), ("MSR", "RDMSR and WRMSR support"),
        ("PAE", "PAE: physical address extensions"), ("MCE", "MCE: machine check exception"), ("CMPXCHG8B", "CMPXCHG8B inst."),
        ("APIC", "APIC on chip"), ("SysEnterSysExit", "SYSENTER and SYSEXIT"), ("MTRR", "MTRR: memory type range registers"),
        ("PGE", "PTE global bit"), ("MCA", "MCA: machine check architecture"), ("CMOV", "CMOV: conditional move/compare instr"),
        ("PAT", "PAT: page attribute table"), ("PSE36", "PSE-36: page size extension"), ("CLFSH", "CLFLUSH instruction"),
        ("MMX", "MMX Technology"), ("FXSR", "FXSAVE/FXRSTOR"), ("SSE", "SSE extensions"), ("SSE2", "SSE2 extensions"),
        ("HTT", "hyper-threading / multi-core supported"),
    ]),
    ("feature information (1/ecx)", 0x1, None, ECX, &[
        ("SSE3", "PNI/SSE3: Prescott New Instructions"), ("PCLMULQDQ", "PCLMULDQ instruction"), ("SSSE3", "SSSE3 extensions"),
        ("FMA", "FMA instruction"), ("CMPXCHG16B", "CMPXCHG16B instruction"), ("PCID", "PCID: process context identifiers"),
        ("SSE41", "SSE4.1 extensions"), ("SSE42", "SSE4.2 extensions"), ("MOVBE", "MOVBE instruction"), ("POPCNT", "POPCNT instruction"),
        ("AES", "AES instruction"), ("XSAVE", "XSAVE/XSTOR states"), ("OSXSAVE", "OS-enabled XSAVE/XSTOR"),
        ("AVX", "AVX: advanced vector extensions"), ("F16C", "F16C half-precision convert instruction"),
        ("RDRAND", "RDRAND instruction"), ("Hypervisor", "hypervisor guest status"),
    ]),
    ("extended feature flags (7)", 0x7, Some(0), EBX, &[
        ("FSGSBASE", "FSGSBASE instructions"), ("BMI1", "BMI1 instructions"), ("AVX2", "AVX2: advanced vector extensions 2"),
        ("SMEP", "SMEP supervisor mode exec protection"), ("BMI2", "BMI2 instructions"), ("ERMS", "enhanced REP MOVSB/STOSB"),
        ("INVPCID", "INVPCID instruction"), ("ZeroFcsFds", "deprecated FPU CS/DS"),
        ("AVX512F", "AVX512F: AVX-512 foundation instructions"), ("AVX512DQ", "AVX512DQ: double & quadword instructions"),
        ("RDSEED", "RDSEED instruction"), ("ADX", "ADX instructions"), ("SMAP", "SMAP: supervisor mode access prevention"),
        ("AVX512_IFMA", "AVX512IFMA: integer fused multiply add"), ("CLFLUSHOPT", "CLFLUSHOPT instruction"), ("CLWB", "CLWB instruction"),
        ("AVX512CD", "AVX512CD: conflict detection instrs"), ("SHA", "SHA instructions"), ("AVX512BW", "AVX512BW: byte & word instructions"),
        ("AVX512VL", "AVX512VL: vector length"),
    ]),
    ("extended feature flags (7)", 0x7, Some(0), ECX, &[
        ("AVX512_VBMI", "AVX512VBMI: vector byte manipulation"), ("UMIP", "UMIP: user-mode instruction prevention"),
        ("WAITPKG", "WAITPKG instructions"), ("AVX512_VBMI2", "AVX512_VBMI2: byte VPCOMPRESS, VPEXPAND"),
        ("CET_SS", "CET_SS: CET shadow stack"), ("GFNI", "GFNI: Galois Field New Instructions"), ("VAES", "VAES instructions"),
        ("VPCLMULQDQ", "VPCLMULQDQ instruction"), ("AVX512_VNNI", "AVX512_VNNI: neural network instructions"),
        ("AVX512_BITALG", "AVX512_BITALG: bit count/shiffle"), ("AVX512_VPOPCNTDQ", "AVX512: VPOPCNTDQ instruction"),
        ("RDPID", "RDPID: read processor ID supported"), ("CLDEMOTE", "CLDEMOTE supports cache line demote"),
        ("MOVDIRI", "MOVDIRI instruction"), ("MOVDIR64B", "MOVDIR64B instruction"),
    ]),
    ("extended feature flags (7)", 0x7, Some(0), EDX, &[
        ("FSRM", "fast short REP MOV"), ("AVX512_VP2INTERSECT", "AVX512_VP2INTERSECT: intersect mask regs"),
        ("SERIALIZE", "SERIALIZE instruction"), ("AVX512_FP16", "AVX512_FP16: fp16 support"),
    ]),
    ("XSAVE features (0xd/0)", 0xD, Some(0), EAX, &[
        ("x87", "x87 state"), ("SSE", "SSE state"), ("AVX", "AVX state"), ("opmask", "AVX-512 opmask"),
        ("ZMM_Hi256", "AVX-512 ZMM_Hi256"), ("Hi16_ZMM", "AVX-512 Hi16_ZMM"),
    ]),
    ("XSAVE features (0xd/0)", 0xD, Some(1), EAX, &[
        ("XSAVEOPT", "XSAVEOPT instruction"), ("XSAVEC", "XSAVEC instruction"), ("XSAVES", "XSAVES/XRSTORS instructions"),
    ]),
    ("XSAVE features (0xd/0)", 0xD, Some(1), ECX, &[("CET_U", "CET_U user state"), ("CET_S", "CET_S supervisor state")]),
    // FFXSR, bit 25, stands under the name that this bit has in 1/edx
    ("extended feature flags (0x80000001/edx)", 0x8000_0001, None, EDX, &[
        ("FPU", "x87 FPU on chip"), ("VME", "virtual-8086 mode enhancement"), ("DE", "debugging extensions"),
        ("PSE", "page size extensions"), ("TSC", "time stamp counter"), ("MSR", "RDMSR and WRMSR support"),
        ("PAE", "physical address extensions"), ("MCE", "machine check exception"), ("CMPXCHG8B", "CMPXCHG8B inst."),
        ("APIC", "APIC on chip"), ("SysCallSysRet", "SYSCALL and SYSRET instructions"), ("MTRR", "memory type range registers"),
        ("PGE", "global paging extension"), ("MCA", "machine check architecture"), ("CMOV", "conditional move/compare instruction"),
        ("PAT", "page attribute table"), ("PSE36", "page size extension"), ("NX", "no-execute page protection"),
        ("MmxExt", "AMD multimedia instruction extensions"), ("MMX", "MMX Technology"), ("FXSR", "FXSAVE/FXRSTOR"),
        ("FFXSR", "SSE extensions"), ("Page1GB", "1-GB large page support"), ("RDTSCP", "RDTSCP"), ("LM", "long mode (AA-64)"),
        ("3DNowExt", "3DNow! instruction extensions"), ("3DNow", "3DNow! instructions"),
    ]),
    ("AMD feature flags (0x80000001/ecx)", 0x8000_0001, None, ECX, &[
        ("LahfSahf", "LAHF/SAHF supported in 64-bit mode"), ("CmpLegacy", "CMP Legacy"), ("AltMovCr8", "AltMovCr8"),
        ("ABM", "LZCNT advanced bit manipulation"), ("SSE4A", "SSE4A support"), ("MisAlignSse", "misaligned SSE mode"),
        ("3DNowPrefetch", "3DNow! PREFETCH/PREFETCHW instructions"), ("IBS", "instruction based sampling"), ("XOP", "XOP support"),
        ("FMA4", "4-operand FMA instruction"), ("TopologyExtensions", "topology extensions"),
    ]),
    ("Extended Feature Extensions ID (0x80000008/ebx)", 0x8000_0008, None, EBX, &[
        ("CLZERO", "CLZERO instruction"), ("InstRetCntMsr", "instructions retired count support"),
        ("RstrFpErrPtrs", "always save/restore error pointers"), ("INVLPGB", "INVLPGB instruction"), ("RDPRU", "RDPRU instruction"),
        ("WBNOINVD", "WBNOINVD instruction"), ("IBPB", "IBPB: indirect branch prediction barrier"),
        ("IBRS", "IBRS: indirect branch restr speculation"), ("STIBP", "STIBP: 1 thr indirect branch predictor"),
        ("StibpAlwaysOn", "CPU prefers: STIBP always on"), ("EferLmsleUnsupported", "EFER[LMSLE] not supported"),
        ("SSBD", "SSBD: speculative store bypass disable"), ("PSFD", "PSFD: predictive store forward disable"),
        ("BTC_NO", "not vulnerable to branch type confusion"),
    ]),
    ("Performance Optimization Identifiers (0x8000001a/eax)", 0x8000_001A, None, EAX, &[
        ("FP128", "128-bit SSE executed full-width"), ("MOVU", "MOVU* better than MOVL*/MOVH*"), ("FP256", "256-bit SSE executed full-width"),
    ]),
    ("AMD Secure Encryption (0x8000001f)", 0x8000_001F, None, EAX, &[
        ("SME", "SME: secure memory encryption support"), ("SEV", "SEV: secure encrypted virtualize support"),
        ("PageFlushMsr", "VM page flush MSR support"), ("SEV-ES", "SEV-ES: SEV encrypted state support"),
        ("SEV-SNP", "SEV-SNP: SEV secure nested paging"), ("VMPL", "VMPL: VM permission levels"),
        ("RMPQUERY", "RMPQUERY instruction support"), ("TscAuxVirtualization", "virtual TSC_AUX supported"),
    ]),
];

/// Bits that `cpuid` has no line for.
const WITHOUT_LINE: [(u32, &str); 1] = [(0x8000_001F, "SecureAvic")];

/// The version of Debian 12, whose words these are; of any other the words that it shares count.
const VERSION: &str = "cpuid version 20230120";

/// The version that is installed, or none and a word on it.
pub fn installed() -> Option<String> {
    match Command::new("cpuid").arg("--version").output() {
        Ok(output) if output.status.success() => Some(String::from_utf8_lossy(&output.stdout).trim().to_string()),
        _ => {
            // not by eprintln!, which a test that passes keeps to itself
            let _ = writeln!(std::io::stderr(), "skipped: Debian's cpuid is not installed (apt-get install cpuid)");
            None
        }
    }
}

/// What it decodes of the table of a file.
pub fn text(file: &str) -> String {
    let dump = format!("{file}.dump");
    let ran = run(&["to-dump", file, "-o", &dump]);
    assert_eq!(ran.status, 0, "{}", ran.err);
    let output = Command::new("cpuid").args(["-f", &dump]).output().expect("cpuid runs");
    assert!(output.status.success() && output.stderr.is_empty(), "{output:?}");
    // its name string has bytes that are no text where every bit is set
    String::from_utf8_lossy(&output.stdout).into_owned()
}

/// The lines `words = value` under each heading.
fn decoded(pages: &[u8], folder: &str) -> BTreeMap<(String, String), String> {
    let (mut lines, mut heading) = (BTreeMap::new(), String::new());
    for line in text(&Folder::new(folder).file("pages", pages)).lines() {
        if let Some(title) = line.strip_suffix(':') {
            heading = title.trim().to_string();
        } else if let Some((words, value)) = line.split_once(" = ") {
            lines.entry((heading.clone(), words.trim().to_string())).or_insert(value.trim().to_string());
        }
    }
    lines
}

/// Whether the table has a bit, by the place that the name has in the command's table.
fn has(table: &Table, leaf: u32, subleaf: Option<u32>, register: usize, name: &str) -> bool {
    let f = FEATURES.iter().find(|f| (f.leaf, f.subleaf, f.register) == (leaf, subleaf, register)).expect("a feature register");
    let (bit, _) = f.bits.iter().find(|(_, own)| *own == name).unwrap_or_else(|| panic!("no bit {name}"));
    let r = table.row(leaf, subleaf).expect("the row");
    [r.eax, r.ebx, r.ecx, r.edx][register] >> bit & 1 == 1
}

/// The page set in which a feature has its bit where bit `k` of its number is set: over all `k` no two features look alike.
fn pattern(k: u32) -> Entries {
    let mut entries = rich();
    let mut number = 0;
    for f in FEATURES.iter().filter(|f| f.leaf != 0xD) {
        for (bit, name) in f.bits {
            number += 1;
            let registers = entries.get_mut(&(f.leaf, f.subleaf.unwrap_or(0))).expect("a required row");
            if number >> k & 1 == 0 && !["INVLPGB", "HTT"].contains(name) {
                registers[f.register] &= !(1 << bit);
            }
        }
    }
    entries
}

#[test]
fn its_words_are_the_tables_bits() {
    let Some(version) = installed() else { return };
    let mut legacy = rich();
    legacy.insert((0xD, 0), [3, 0, 0, 0]);
    legacy.insert((0xD, 1), [0; 4]);
    for entries in (0..8).map(pattern).chain([epyc(), rich(), legacy]) {
        let pages = set(&entries);
        let (table, lines) = (build(&pages, Options::new()).unwrap(), decoded(&pages, "debian_words"));
        let mut held = 0;
        for (heading, leaf, subleaf, register, names) in SECTIONS {
            for (name, words) in names {
                match lines.get(&(heading.to_string(), words.to_string())) {
                    Some(value) => {
                        assert_eq!(*value, has(&table, leaf, subleaf, register, name).to_string(), "{heading}: {words}");
                        held += 1;
                    }
                    None => assert_ne!(version, VERSION, "{heading}: no line '{words}'"),
                }
            }
        }
        assert!(held >= 100, "{held} words held");
    }
}

/// What `cpuid -r` prints is read: its copy of a table's dump gives the same table, and this machine's own dump is rows and headings alone.
#[test]
fn its_raw_text_is_read() {
    if installed().is_none() {
        return;
    }
    let folder = Folder::new("debian_raw");
    let (dump, pages) = (folder.path("dump"), folder.path("pages"));
    assert_eq!(run(&["to-dump", EPYC, "-o", &dump]).status, 0);
    let copy = Command::new("cpuid").args(["-r", "-f", &dump]).output().expect("cpuid runs");
    assert_eq!(run(&["from-dump", &folder.file("copy", copy.stdout), "-o", &pages]).status, 0);
    assert_eq!(run(&["image", &pages, "-o", "-"]).out, std::fs::read("../crates/snp_cpuid_image/stdout").unwrap());

    let own = Command::new("cpuid").args(["-1", "-r"]).output().expect("cpuid runs");
    let rows = String::from_utf8_lossy(&own.stdout).lines().filter(|line| line.starts_with("   0x")).count();
    // where this is no processor that CPUID can be asked of, there is nothing to read
    if own.status.success() && rows > 0 {
        let ran = run(&["from-dump", &folder.file("own", own.stdout), "-o", &pages]);
        assert_eq!(ran.status, 0, "{}", ran.err);
        let numbers: Vec<usize> = ran.err.split(' ').filter_map(|word| word.parse().ok()).collect();
        assert_eq!(numbers.iter().sum::<usize>(), rows, "left out and taken: {}", ran.err);
    }
}

/// Every feature bit is held, but those that `cpuid` has no line for.
#[test]
fn every_feature_has_its_words() {
    for f in &FEATURES {
        for (_, name) in f.bits {
            let held = SECTIONS.iter().any(|s| (s.1, s.2, s.3) == (f.leaf, f.subleaf, f.register) && s.4.iter().any(|(own, _)| own == name));
            assert_ne!(held, WITHOUT_LINE.contains(&(f.leaf, *name)), "{:X} {name}", f.leaf);
        }
    }
}

/// Figures of an EPYC 7713 that `table` gives too (table.rs).
#[test]
fn its_figures_of_an_epyc_7713() {
    if installed().is_none() {
        return;
    }
    let lines = decoded(&set(&epyc()), "debian_figures");
    for (heading, words, value) in [
        ("version information (1/eax)", "(family synth)", "0x19 (25)"),
        ("version information (1/eax)", "(model synth)", "0x1 (1)"),
        ("miscellaneous (1/ebx)", "maximum IDs for CPUs in pkg", "0x80 (128)"),
        ("x2APIC features / processor topology (0xb)", "number of logical processors at level", "0x2 (2)"),
        ("XSAVE features (0xd/0)", "bytes required by XSAVE/XRSTOR area", "0x00000340 (832)"),
        ("Size Identifiers (0x80000008/ecx)", "number of threads", "0x80 (128)"),
        ("Size Identifiers (0x80000008/ecx)", "ApicIdCoreIdSize", "0x7 (7)"),
        ("Core Identifiers (0x8000001e/ebx)", "threads per core", "0x2 (2)"),
        ("AMD Secure Encryption (0x8000001f)", "encryption bit position in PTE", "0x33 (51)"),
        ("AMD Secure Encryption (0x8000001f)", "physical address space width reduction", "0x5 (5)"),
        ("AMD Secure Encryption (0x8000001f)", "number of VM permission levels", "0x4 (4)"),
    ] {
        assert_eq!(lines.get(&(heading.into(), words.into())).map(String::as_str), Some(value), "{heading}: {words}");
    }
}
