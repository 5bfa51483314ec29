//! Stand-in for x86defs: the names that the three files use, with places from AMD64 APM volume 3 and, where it has none, the Intel SDM.

#![feature(macro_metavar_expr_concat)]

#[macro_use]
mod bitfield;
pub mod cpuid;
pub mod snp;
pub mod xsave;
