//! The proved functions as assembly, in the package that `install/crate` makes. From the repository, build.rs links the library instead.

#[cfg(not(target_os = "none"))]
core::arch::global_asm!(include_str!("../snp_cpuid.s"), options(att_syntax, raw));
#[cfg(target_os = "none")]
core::arch::global_asm!(include_str!("../ring0.s"), options(att_syntax, raw));
