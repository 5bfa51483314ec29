//! Lays the three files of cvm_cpuid beside the stub, as oracle/build.rs does, and makes the edits of docs/OPENHCL.md to mod.rs and snp.rs: the
//! blocks of Rust there, in order, take the places of what is named below.

use std::env;
use std::fs;
use std::path::Path;
use std::path::PathBuf;

const DOCUMENT: &str = "../../docs/OPENHCL.md";

/// The lines of `use` in mod.rs that go.
const UNUSED: [&str; 3] = ["use snp::SnpCpuidInitializer;\n", "use thiserror::Error;\n", "use x86defs::snp::HvPspCpuidPage;\n"];

/// The words of errors in mod.rs, in attributes, which the crate that takes their place says too (../port/tests/replacement.rs).
const WORDS: [&str; 6] = [
    "topology provided is inconsistent with hyperthreading configuration; apic core id size {0}",
    "processor count inconsistency; apic core id size {0}",
    "threads per unit count is inconsistent",
    "missing required result for leaf {0:?} subleaf {1:?}",
    "provided topology values are inconsistent",
    "Invlpgb is required but unavailable",
];

/// What the block for snp.rs has in the place of the method's body.
const BODY: &str = "    // the body of the method, without `self.`\n";

fn main() {
    println!("cargo::rerun-if-env-changed=OPENVMM_CVM_CPUID");
    let from = env::var("OPENVMM_CVM_CPUID").expect("set OPENVMM_CVM_CPUID to the folder with mod.rs, snp.rs and masking.rs");
    let tree = PathBuf::from(env::var("OUT_DIR").unwrap()).join("cvm_cpuid");
    fs::create_dir_all(&tree).unwrap();
    let source = |name: &str| read(&Path::new(&from).join(name));
    let [build, head, snp, errors]: [String; 4] = blocks(&read(Path::new(DOCUMENT))).try_into().expect("four blocks of Rust below 'Edit'");
    fs::write(tree.join("masking.rs"), source("masking.rs")).unwrap();
    // nothing of it is left over
    fs::write(tree.join("snp.rs"), format!("#![deny(unused)]\n{}", snp.replace(BODY, &body(&source("snp.rs"))))).unwrap();
    fs::write(tree.join("tdx.rs"), read(Path::new("../oracle/src/tdx.rs"))).unwrap();
    let root = tree.join("mod.rs");
    fs::write(&root, edited(source("mod.rs"), &build, &head, &errors)).unwrap();
    fs::write(tree.join("tree.rs"), format!("#[path = {root:?}]\npub mod cvm_cpuid;\n")).unwrap();
}

fn read(path: &Path) -> String {
    println!("cargo::rerun-if-changed={}", path.display());
    fs::read_to_string(path).unwrap_or_else(|error| panic!("{}: {error}", path.display()))
}

/// The blocks of Rust below the heading of an edit.
fn blocks(document: &str) -> Vec<String> {
    let edits = document.split("\n## ").filter(|section| section.starts_with("Edit ")).flat_map(|section| section.split("```rust\n").skip(1));
    edits.map(|block| block.split("```").next().unwrap().to_string()).collect()
}

/// mod.rs with its three edits.
fn edited(source: String, build: &str, head: &str, errors: &str) -> String {
    assert!(WORDS.iter().all(|words| source.contains(&format!("\"{words}\""))), "mod.rs has other words of errors");
    let mut source = with(&source, "impl CpuidResultsIsolationType<'_> {", build);
    source = with(&source, "pub enum CpuidResultsError {", errors);
    source = with(&source, "pub enum TopologyError {", "");
    // from the head of `new` to the first line after the choice of an initializer
    let (before, rest) = source.split_once("    fn new(params: CpuidResultsIsolationType<'_>)").expect("mod.rs has `new`");
    let (_, after) = rest.split_once("\n        };\n\n").expect("the choice ends");
    source = format!("{before}{}{after}", indented(head));
    for line in UNUSED {
        assert_eq!(source.matches(line).count(), 1, "mod.rs no longer has this once: {line}");
        source = source.replace(line, "");
    }
    source
}

/// The lines of a block as they stand in an `impl`.
fn indented(block: &str) -> String {
    block.lines().map(|line| format!("    {line}\n")).collect()
}

/// The body of the method `hv_cpuid_leaves` of snp.rs as that of a function without `self`.
fn body(source: &str) -> String {
    let (_, method) = source.split_once("    fn hv_cpuid_leaves(&self) -> [(CpuidFunction, CpuidResult); 5] {\n").expect("snp.rs has the method");
    let (body, _) = method.split_once("\n    }\n").expect("the method ends");
    body.lines().map(|line| format!("{}\n", line.strip_prefix("    ").unwrap_or(line).replace("self.", ""))).collect()
}

/// The source with an item, its comment and its attributes replaced. An item ends at the brace that begins a line.
fn with(source: &str, head: &str, by: &str) -> String {
    assert_eq!(source.matches(head).count(), 1, "mod.rs no longer has this once: {head}");
    let (before, item) = source.split_once(head).unwrap();
    let (_, after) = item.split_once("\n}\n").expect("an item ends");
    let belongs = |line: &&str| line.starts_with("///") || line.starts_with("#[");
    let above: usize = before.lines().rev().take_while(belongs).map(|line| line.len() + 1).sum();
    format!("{}{by}{after}", &before[..before.len() - above])
}
