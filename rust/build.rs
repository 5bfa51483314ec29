//! Links the proved static library. `SNP_CPUID_LIB` names a folder that has libsnp_cpuid.a; without it the repository's own is taken, and `make`
//! proves and builds it where it is not there yet, or older than a source, a specification or a proof. For a target without an operating system it is
//! the library for ring 0, in the folder ring0 beside it. The package of a registry (install/crate) has the library as assembly, and needs none.

use std::path::{Path, PathBuf};
use std::process::{Command, exit};

fn fail(text: String) -> ! {
    eprintln!("snp-cpuid: {text}");
    exit(1)
}

/// The library of the repository, made again where it is stale: the Makefile knows of what it is made.
fn make(repository: &Path, library: &str) {
    let mut make = Command::new("make");
    // cargo may itself run under make, whose words are not for this one
    make.args(["--silent", "--no-print-directory", library]).env_remove("MAKEFLAGS").env_remove("MFLAGS");
    match make.current_dir(repository).status() {
        Ok(status) if status.success() => {}
        Ok(status) => fail(format!("`make {library}` ended with {status}; or set SNP_CPUID_LIB to a folder with libsnp_cpuid.a")),
        Err(error) => fail(format!("`make` cannot be started ({error}): install it, or set SNP_CPUID_LIB to a folder with libsnp_cpuid.a")),
    }
}

fn main() {
    println!("cargo::rerun-if-env-changed=SNP_CPUID_LIB");
    println!("cargo::rustc-check-cfg=cfg(snp_cpuid_assembly)");
    let assembly = Path::new(env!("CARGO_MANIFEST_DIR")).join("snp_cpuid.s");
    if std::env::var_os("SNP_CPUID_LIB").is_none() && assembly.exists() {
        println!("cargo::rerun-if-changed={}", assembly.display());
        println!("cargo::rustc-cfg=snp_cpuid_assembly");
        return;
    }
    let folder = match std::env::var_os("SNP_CPUID_LIB") {
        Some(given) => PathBuf::from(given),
        None => {
            let repository = Path::new(env!("CARGO_MANIFEST_DIR")).join("..");
            println!("cargo::rerun-if-changed={}", repository.join("crates").display());
            println!("cargo::rerun-if-changed={}", repository.join("crates.txt").display());
            make(&repository, "target/staticlib/libsnp_cpuid.a");
            repository.join("target/staticlib")
        }
    };
    let bare = std::env::var("CARGO_CFG_TARGET_OS").is_ok_and(|system| system == "none");
    let folder = if bare { folder.join("ring0") } else { folder };
    let library = folder.join("libsnp_cpuid.a");
    if !library.exists() {
        fail(format!("{} is not there", library.display()));
    }
    println!("cargo::rerun-if-changed={}", library.display());
    println!("cargo::rustc-link-search=native={}", folder.display());
    println!("cargo::rustc-link-lib=static=snp_cpuid");
}
