//! The crate that takes the place of `cvm_cpuid`, over the stand-ins: leaves and errors as a caller in OpenHCL meets them.

use core::arch::x86_64::CpuidResult;
use snp_cvm_cpuid::CpuidResultsError;
use snp_cvm_cpuid::CpuidResultsIsolationType;
use snp_cvm_cpuid::TopologyError;
use virt::CpuidLeafSet;
use x86defs::cpuid::CpuidFunction;

const HYPERVISOR: [u32; 5] = [0x40000003, 0x40000004, 0x40000005, 0x40000006, 0x4000000c];

/// Different numbers in every register of the five leaves.
fn hv_cpuid_leaves() -> [(CpuidFunction, CpuidResult); 5] {
    HYPERVISOR.map(|leaf| (CpuidFunction(leaf), CpuidResult { eax: leaf + 1, ebx: leaf + 2, ecx: leaf + 3, edx: leaf + 4 }))
}

fn build(cpuid_pages: &[u8], secure_avic: bool) -> Result<CpuidLeafSet, CpuidResultsError> {
    CpuidResultsIsolationType::Snp { cpuid_pages, secure_avic, hv_cpuid_leaves: hv_cpuid_leaves() }.build()
}

fn shipped() -> Vec<u8> {
    std::fs::read("../../tests/data/epyc-milan.pages").expect("the shipped pages")
}

/// The first entry for a leaf on page 0: where it begins.
fn entry(pages: &[u8], leaf: u32) -> usize {
    (0..64).map(|entry| 16 + 48 * entry).find(|at| pages[*at..][..4] == leaf.to_le_bytes()).expect("an entry for it")
}

#[test]
fn leaves_and_the_hypervisors() {
    let set = build(&shipped(), false).unwrap();
    let leaves: Vec<_> = set.leaves().iter().map(|leaf| (leaf.function, leaf.index, leaf.result)).collect();
    // the model's image of the shipped pages: 21 bytes for a row without subleaf, 25 for one with
    let image = std::fs::read("../../crates/snp_cpuid_image/stdout").expect("the model's image");
    let (mut rows, mut rest) = (vec![], &image[..]);
    while let [tag, more @ ..] = rest {
        let words: Vec<u32> = more.chunks_exact(4).take(4 + *tag as usize).map(|word| u32::from_le_bytes(word.try_into().unwrap())).collect();
        let registers = words[words.len() - 4..].try_into().unwrap();
        rows.push((words[0], (*tag == 2).then(|| words[1]), registers));
        rest = &more[4 * words.len()..];
    }
    rows.extend(HYPERVISOR.map(|leaf| (leaf, None, [leaf + 1, leaf + 2, leaf + 3, leaf + 4])));
    assert_eq!(leaves, rows);
    assert_eq!(rows.len(), 34);
}

#[test]
fn secure_avic_reaches_the_library() {
    let mut pages = shipped();
    // bit 26 of 8000001Fh.EAX
    let at = entry(&pages, 0x8000001f) + 24 + 3;
    pages[at] |= 1 << 2;
    let eax = |secure_avic| build(&pages, secure_avic).unwrap().leaves().iter().find(|leaf| leaf.function == 0x8000001f).unwrap().result[0];
    assert_eq!(eax(true) ^ eax(false), 1 << 26);
}

#[test]
fn errors_by_the_names_of_the_source() {
    let changed = |change: &dyn Fn(&mut Vec<u8>)| {
        let mut pages = shipped();
        change(&mut pages);
        build(&pages, false).err().expect("an error")
    };
    let gone = |leaf: u32| move |pages: &mut Vec<u8>| pages[entry(&shipped(), leaf)..][..4].fill(0xff);
    assert_eq!(changed(&gone(0x8000001f)), CpuidResultsError::MissingRequiredResult(CpuidFunction(0x8000001f), None));
    assert_eq!(changed(&gone(7)), CpuidResultsError::MissingRequiredResult(CpuidFunction(7), Some(0)));
    // INVLPGB is bit 3 of 80000008h.EBX
    let size = entry(&shipped(), 0x80000008);
    assert_eq!(changed(&|pages| pages[size + 28] &= !8), CpuidResultsError::InvlpgbUnavailable);
    // s is bits 12 to 15 of its ECX, 7 in the shipped pages; nc, its lowest byte, counts more processors than s has room for
    assert_eq!(changed(&|pages| pages[size + 32] = 254), CpuidResultsError::TopologyInconsistent(TopologyError::ProcessorCount(7)));
    // where OpenHCL's own code panics, or does not look
    for (change, number) in
        [(&(|pages: &mut Vec<u8>| pages.truncate(100)) as &dyn Fn(&mut Vec<u8>), 1), (&|pages| pages[0] = 65, 2), (&|pages| pages[16 + 40] = 1, 17)]
    {
        let error = changed(change);
        assert!(matches!(error, CpuidResultsError::Refused(refusal) if refusal.number() == number), "{error:?}");
        // the cause is the source, and one for `anyhow` and its like
        let error: Box<dyn std::error::Error + Send + Sync> = error.into();
        assert_eq!(error.to_string(), "the cpuid pages are refused");
        assert!(error.source().unwrap().to_string().contains(["4,096", "64", "reserved"][[1, 2, 17].iter().position(|n| *n == number).unwrap()]));
    }
}

/// The words and sources are those that mod.rs has in attributes of `thiserror`, so that a failure of TDX reads as before.
#[test]
fn the_words_are_those_of_the_source() {
    let why = || TopologyError::ProcessorCount(7);
    for (said, words) in [
        (TopologyError::Hyperthreading(3).to_string(), "topology provided is inconsistent with hyperthreading configuration; apic core id size 3"),
        (why().to_string(), "processor count inconsistency; apic core id size 7"),
        (TopologyError::ThreadsPerUnit.to_string(), "threads per unit count is inconsistent"),
        (
            CpuidResultsError::MissingRequiredResult(CpuidFunction(7), Some(0)).to_string(),
            "missing required result for leaf CpuidFunction(7) subleaf Some(0)",
        ),
        (CpuidResultsError::TopologyInconsistent(why()).to_string(), "provided topology values are inconsistent"),
        (CpuidResultsError::InvlpgbUnavailable.to_string(), "Invlpgb is required but unavailable"),
    ] {
        assert_eq!(said, words);
    }
    let source = |error: &dyn std::error::Error| error.source().map(|why| why.to_string());
    assert_eq!(source(&CpuidResultsError::TopologyInconsistent(why())), Some(why().to_string()));
    assert_eq!(source(&CpuidResultsError::InvlpgbUnavailable), None);
}

/// The lines that docs/OPENHCL.md has for openvmm's list of crates are those of this workspace's, but for where the crates stand.
#[test]
fn the_first_edit_names_the_crates() {
    let text = std::fs::read_to_string("../../docs/OPENHCL.md").expect("the document");
    let (_, block) = text.split_once("```toml\n").expect("a block");
    let (block, _) = block.split_once("```").expect("it ends");
    let here = std::fs::read_to_string("../Cargo.toml").expect("the workspace");
    let names: Vec<&str> = block.lines().map(|line| line.split_once(" = { path = \"").expect("a crate and its place").0).collect();
    assert!(names.iter().all(|name| here.lines().any(|line| line.starts_with(&format!("{name} = {{ path = ")))), "{names:?}");
    // every crate that the replacement leans on is openvmm's or one of these
    let manifest = std::fs::read_to_string("../replacement/Cargo.toml").expect("the manifest");
    assert!(manifest.contains("name = \"snp_cvm_cpuid\""));
    let (_, leans) = manifest.split_once("[dependencies]\n").expect("dependencies");
    let leans: Vec<&str> = leans.lines().map(|line| line.strip_suffix(".workspace = true").expect("named in the workspace")).collect();
    assert_eq!(leans, ["snp-cpuid", "virt", "x86defs"]);
    assert_eq!(names, ["snp-cpuid", "snp_cvm_cpuid"]);
}
