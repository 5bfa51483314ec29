//! Lays the three files of cvm_cpuid, byte for byte, beside the stub of the module that they name and we don't have, and finds the lines on
//! which the Rust panics where document 01 has a refusal.

use std::env;
use std::fs;
use std::path::Path;
use std::path::PathBuf;

const FILES: [&str; 3] = ["mod.rs", "snp.rs", "masking.rs"];

/// The lines that panic: a refusal's name, the file, the text of the line, and how often that text stands in the file.
const PANICS: [(&str, &str, &str, usize); 4] = [
    // an assert is reported at its first line; its condition stands on the next
    ("LENGTH", "mod.rs", "assert!(\n                    cpuid_pages.len() % size_of::<HvPspCpuidPage>() == 0", 1),
    ("COUNT", "snp.rs", "&self.cpuid_pages[self.index.page_index].cpuid_leaf_info[self.index.function_index];", 2),
    ("SUM", "mod.rs", "area_size = area_size.max(result.eax + result.ebx);", 1),
    ("PROCESSORS", "snp.rs", "(address_space_sizes_ecx.nc() + 1) as u32", 2),
];

fn main() {
    println!("cargo::rerun-if-env-changed=OPENVMM_CVM_CPUID");
    let from = env::var("OPENVMM_CVM_CPUID").expect("set OPENVMM_CVM_CPUID to the folder with mod.rs, snp.rs and masking.rs");
    let tree = PathBuf::from(env::var("OUT_DIR").unwrap()).join("cvm_cpuid");
    fs::create_dir_all(&tree).unwrap();
    for name in FILES {
        copy(&Path::new(&from).join(name), &tree.join(name));
    }
    copy(Path::new("src/tdx.rs"), &tree.join("tdx.rs"));

    let root = tree.join("mod.rs");
    let text = format!("#[path = {root:?}]\npub mod cvm_cpuid;\n\n{}", panics(&tree));
    fs::write(tree.join("tree.rs"), text).unwrap();
}

fn copy(from: &Path, to: &Path) {
    println!("cargo::rerun-if-changed={}", from.display());
    let bytes = fs::read(from).unwrap_or_else(|error| panic!("{}: {error}", from.display()));
    fs::write(to, bytes).unwrap();
}

/// `NAME_LINES`, for each panic the file's name and the lines.
fn panics(tree: &Path) -> String {
    PANICS
        .map(|(name, file, line, times)| {
            let source = fs::read_to_string(tree.join(file)).unwrap();
            let lines: Vec<_> = source.match_indices(line).map(|(at, _)| source[..at].matches('\n').count() as u32 + 1).collect();
            assert_eq!(lines.len(), times, "{file} no longer has this text so often: {line}");
            format!("pub const {name}_LINES: (&str, &[u32]) = ({file:?}, &{lines:?});\n")
        })
        .concat()
}
