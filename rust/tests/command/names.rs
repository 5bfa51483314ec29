//! The command's tables of names against three sources: the specification's places of bits and fields, the public database
//! (tests/data/cpuid-bits.csv), and the masks of the library.

use crate::features::{FEATURES, REGISTERS};
use crate::fields::FIELDS;
use crate::page_sets::{rich, set};
use snp_cpuid::{Options, build};
use std::collections::{BTreeMap, BTreeSet};
use std::fs;

/// A register as document 01 writes it: 80000008h.EBX, D.1.ECX.
fn written(leaf: u32, subleaf: Option<u32>, register: usize) -> String {
    let leaf = if leaf < 0x10 { format!("{leaf:X}") } else { format!("{leaf:X}h") };
    subleaf.map_or(leaf.clone(), |k| format!("{leaf}.{k}")) + "." + REGISTERS[register]
}

fn specs() -> Vec<String> {
    let files = fs::read_dir("../crates/x86defs/specs").expect("the specification").map(|entry| entry.unwrap().path());
    files.filter(|path| path.extension().is_some_and(|e| e == "antt")).map(|path| fs::read_to_string(path).unwrap()).collect()
}

/// Every bit that the specification names in a register has a name here, and no other.
#[test]
fn bits_are_those_of_the_specification() {
    let mut expected: BTreeMap<String, BTreeSet<u32>> = BTreeMap::new();
    for text in specs().iter().filter(|text| text.contains("pub position :")) {
        let register = text.strip_prefix("-- ").and_then(|rest| rest.split([':', ',', ' ']).next()).expect("line one names the register");
        let places =
            text.lines().filter_map(|line| line.strip_prefix("position ")).map(|line| line.split_once(" = ").unwrap().1.trim().parse().unwrap());
        expected.insert(register.into(), places.collect());
    }
    let ours: BTreeMap<String, BTreeSet<u32>> =
        FEATURES.iter().map(|f| (written(f.leaf, f.subleaf, f.register), f.bits.iter().map(|(bit, _)| *bit).collect())).collect();
    assert_eq!(ours, expected);
    assert_eq!(ours.len(), FEATURES.len());
}

/// Every field here is a span of the specification, and every span is here. The specification has an underscore where the command has a dash.
#[test]
fn fields_are_those_of_the_specification() {
    let fields = fs::read_to_string("../crates/x86defs/specs/Fields.antt").unwrap();
    let expected: BTreeMap<String, (u32, u32)> = fields
        .lines()
        .filter_map(|line| line.strip_prefix("span "))
        .map(|line| {
            let (name, bits) = line.split_once(" = bits ").unwrap();
            let (low, width) = bits.trim().split_once(' ').unwrap();
            (name.replace('_', "-"), (low.parse().unwrap(), width.parse().unwrap()))
        })
        .collect();
    for f in &FIELDS {
        assert_eq!(expected.get(f.name), Some(&(f.low, f.width)), "{}", f.name);
    }
    assert_eq!(FIELDS.iter().map(|f| f.name.into()).collect::<BTreeSet<String>>(), expected.into_keys().collect());
}

/// With every bit of every entry set, a feature register of the table is exactly its named bits: each bit that a mask keeps, or the table
/// sets, has a name, and no other bit has one.
#[test]
fn bits_are_those_that_the_library_keeps() {
    let table = build(&set(&rich()), Options::new().secure_avic(true)).unwrap();
    for f in &FEATURES {
        let r = table.row(f.leaf, f.subleaf).expect("the row");
        let named = f.bits.iter().fold(0, |mask: u32, (bit, _)| mask | 1 << bit);
        assert_eq!([r.eax, r.ebx, r.ecx, r.edx][f.register], named, "{}", written(f.leaf, f.subleaf, f.register));
    }
}

/// Short names of the public database by leaf, subleaf, register, lowest and highest bit.
pub fn database() -> BTreeMap<(u32, u32, String, u32, u32), String> {
    let text = fs::read_to_string("../tests/data/cpuid-bits.csv").expect("the public database");
    let number = |text: &str| text.strip_prefix("0x").map_or_else(|| text.parse(), |hex| u32::from_str_radix(hex, 16)).unwrap();
    let mut lines = BTreeMap::new();
    for line in text.lines().filter(|line| !line.trim().is_empty() && !line.starts_with('#')) {
        let parts: Vec<&str> = line.split(',').map(str::trim).collect();
        let ends = |text: &str| {
            let mut ends: Vec<u32> = text.split(':').map(number).collect();
            ends.sort();
            (ends[0], *ends.last().unwrap())
        };
        let (first, last) = ends(parts[1]);
        let (low, high) = ends(parts[3]);
        for subleaf in first..=last.min(first + 63) {
            lines.insert((number(parts[0]), subleaf, parts[2].to_uppercase(), low, high), parts[4].to_string());
        }
    }
    lines
}

/// Names of the AMD manual that the database has under another.
const OTHER_NAMES: [(&str, &str); 46] = [
    ("SSE3", "pni"),
    ("CMPXCHG16B", "cx16"),
    ("Hypervisor", "guest_status"),
    ("CMPXCHG8B", "cx8"),
    ("SysEnterSysExit", "sep"),
    ("CLFSH", "clflush"),
    ("HTT", "ht"),
    ("SHA", "sha_ni"),
    ("x87", "xcr0_x87"),
    ("SSE", "xcr0_sse"),
    ("AVX", "xcr0_avx"),
    ("opmask", "xcr0_avx512_opmask"),
    ("ZMM_Hi256", "xcr0_avx512_zmm_hi256"),
    ("Hi16_ZMM", "xcr0_avx512_hi16_zmm"),
    ("CET_U", "xss_cet_u"),
    ("CET_S", "xss_cet_p"),
    ("LahfSahf", "lahf_lm"),
    ("AltMovCr8", "cr8_legacy"),
    ("TopologyExtensions", "topoext"),
    ("FPU", "e_fpu"),
    ("VME", "e_vme"),
    ("DE", "e_de"),
    ("PSE", "e_pse"),
    ("TSC", "e_tsc"),
    ("MSR", "e_msr"),
    ("FXSR", "e_fxsr"),
    ("SysCallSysRet", "syscall"),
    ("FFXSR", "fxsr_opt"),
    ("Page1GB", "pdpe1gb"),
    ("InstRetCntMsr", "irperf"),
    ("RstrFpErrPtrs", "xsaveerptr"),
    ("IBPB", "amd_ibpb"),
    ("IBRS", "amd_ibrs"),
    ("STIBP", "amd_stibp"),
    ("StibpAlwaysOn", "amd_stibp_always_on"),
    ("EferLmsleUnsupported", "no_efer_lmsle"),
    ("SSBD", "amd_ssbd"),
    ("PSFD", "amd_psfd"),
    ("MOVU", "movu_preferred"),
    ("PageFlushMsr", "vm_page_flush"),
    ("SEV-SNP", "sev_nested_paging"),
    ("VMPL", "vm_permission_levels"),
    ("RMPQUERY", "rpmquery"),
    ("TscAuxVirtualization", "v_tsc_aux"),
    // the manual's places; the database has no line for them
    ("MMX", ""),
    ("SecureAvic", ""),
];

fn plain(name: &str) -> String {
    name.chars().filter(char::is_ascii_alphanumeric).collect::<String>().to_lowercase()
}

/// Each name stands at the bit at which the public database has it.
#[test]
fn names_are_those_of_the_public_database() {
    let database = database();
    let mut used: BTreeSet<&(&str, &str)> = BTreeSet::new();
    for f in &FEATURES {
        for (bit, name) in f.bits {
            let at = (f.leaf, f.subleaf.unwrap_or(0), REGISTERS[f.register].to_string(), *bit, *bit);
            let public = database.get(&at).map_or("", String::as_str);
            let other = OTHER_NAMES.iter().find(|pair| **pair == (*name, public));
            used.extend(other);
            assert!(
                plain(name) == plain(public) || other.is_some(),
                "{} bit {bit}: {name}, in the database {public}",
                written(f.leaf, f.subleaf, f.register)
            );
        }
    }
    for f in &FIELDS {
        let at = (f.leaf, f.subleaf.unwrap_or(0), REGISTERS[f.register].to_string(), f.low, f.low + f.width - 1);
        assert!(database.contains_key(&at) || (f.leaf, f.name) == (0x8000_0001, "processor-type"), "{at:?}");
    }
    let stale: Vec<_> = OTHER_NAMES.iter().filter(|pair| !used.contains(pair)).collect();
    assert!(stale.is_empty(), "{stale:?}");
}

/// No two bits of a register, and no two registers, are named twice.
#[test]
fn names_are_single_plain_words() {
    for f in &FEATURES {
        let names: BTreeSet<&str> = f.bits.iter().map(|(_, name)| *name).collect();
        assert_eq!(names.len(), f.bits.len());
        assert!(names.iter().all(|name| name.bytes().all(|byte| byte.is_ascii_graphic())));
        assert!(f.bits.windows(2).all(|pair| pair[0].0 < pair[1].0), "bits rise");
    }
}
