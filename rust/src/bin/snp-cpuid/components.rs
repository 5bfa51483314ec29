//! The combined mask by its components.

use crate::features::{EAX, ECX, find};

/// The bits and names of the combined mask, XFEM or XSS: those of D.0.EAX and of D.1.ECX.
fn components() -> impl Iterator<Item = (u32, &'static str)> {
    [(0, EAX), (1, ECX)].into_iter().filter_map(|(subleaf, register)| find(0xD, Some(subleaf), register)).flat_map(|f| f.bits.iter().copied())
}

/// The names of the components that a mask has.
pub fn names(mask: u64) -> Vec<&'static str> {
    components().filter(|(bit, _)| mask >> bit & 1 == 1).map(|(_, name)| name).collect()
}

/// The name of one component.
pub fn name(component: u32) -> Option<&'static str> {
    components().find(|(bit, _)| *bit == component).map(|(_, name)| name)
}
