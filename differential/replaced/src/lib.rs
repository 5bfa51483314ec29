//! The Rust of cvm_cpuid with the edits of docs/OPENHCL.md, asked by the lines that ask the unchanged one.

use oracle::Answer;

/// The edited files. What only TDX uses, or a traced line, is unused here.
#[allow(unused)]
mod tree {
    include!(concat!(env!("OUT_DIR"), "/cvm_cpuid/tree.rs"));
}

oracle::asks! { tree::cvm_cpuid, Refused(refusal) => oracle::Refusal {
    number: refusal.number(),
    leaf: refusal.details().leaf,
    subleaf: refusal.details().subleaf,
    s: refusal.details().s.into(),
} }

/// What the edited Rust answers for these pages. It never panics.
pub fn answer(pages: &[u8], secure_avic: bool) -> Answer {
    leaves(pages, secure_avic).map_or_else(Answer::Refusal, |leaves| oracle::table(&leaves))
}
