//! Panics of the Rust, told apart by the line on which they happen.

use crate::tree;
use std::cell::Cell;
use std::panic;
use std::panic::AssertUnwindSafe;
use std::panic::PanicHookInfo;
use std::sync::Once;

pub enum Place {
    /// The assert on the length of the pages.
    Length,
    /// An entry beyond the 64 of a page.
    Count,
    /// A sum of sizes in `xsave_size`.
    Sum,
    /// `nc() + 1`.
    Processors,
    Other(String),
}

impl Place {
    pub fn number(&self) -> u32 {
        match self {
            Place::Length => 1,
            Place::Count => 2,
            Place::Sum => 5,
            Place::Processors => 7,
            Place::Other(_) => 0,
        }
    }

    fn of(info: &PanicHookInfo<'_>) -> Self {
        let places = [
            (tree::LENGTH_LINES, Place::Length, "assertion failed"),
            (tree::COUNT_LINES, Place::Count, "index out of bounds"),
            (tree::SUM_LINES, Place::Sum, "attempt to add with overflow"),
            (tree::PROCESSORS_LINES, Place::Processors, "attempt to add with overflow"),
        ];
        let message = info.payload_as_str().unwrap_or_default();
        let here = info.location().unwrap();
        for ((file, lines), place, begins) in places {
            if here.file().ends_with(&["cvm_cpuid/", file].concat()) && lines.contains(&here.line()) && message.starts_with(begins) {
                return place;
            }
        }
        Place::Other(info.to_string())
    }
}

thread_local! {
    static WATCHED: Cell<bool> = const { Cell::new(false) };
    static LAST: Cell<Option<Place>> = const { Cell::new(None) };
}

/// Runs it, and says where it panicked if it did. Panics elsewhere in the program are reported as ever.
pub fn caught<T>(run: impl FnOnce() -> T) -> Result<T, Place> {
    static HOOK: Once = Once::new();
    HOOK.call_once(|| {
        let usual = panic::take_hook();
        panic::set_hook(Box::new(move |info| {
            if WATCHED.get() {
                LAST.set(Some(Place::of(info)));
            } else {
                usual(info);
            }
        }));
    });
    WATCHED.set(true);
    // What it touches is its own or only read.
    let ran = panic::catch_unwind(AssertUnwindSafe(run));
    WATCHED.set(false);
    ran.map_err(|_| LAST.take().unwrap())
}
