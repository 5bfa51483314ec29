//! Makes a page set that shows a difference as small as it can, in entries and then in bits.

use crate::check::Case;
use crate::pages;
use crate::pages::Entry;
use crate::pages::MOST;
use crate::pages::PAGE;

/// The smallest case found for which `differs` still holds.
pub fn shrink(case: &Case, differs: impl Fn(&Case) -> bool) -> Case {
    let mut best = case.clone();
    loop {
        let before = weight(&best);
        for step in [plain, fewer_pages, fewer_entries, fewer_bits] {
            step(&mut best, &differs);
        }
        if weight(&best) == before {
            return best;
        }
    }
}

/// Bytes, then set bits.
fn weight(case: &Case) -> (usize, u32) {
    (case.pages.len(), case.pages.iter().map(|byte| byte.count_ones()).sum())
}

/// Takes the change if the difference stays.
fn attempt(best: &mut Case, differs: &impl Fn(&Case) -> bool, change: impl FnOnce(&mut Case)) {
    let mut smaller = best.clone();
    change(&mut smaller);
    if differs(&smaller) {
        *best = smaller;
    }
}

/// Secure AVIC off, no part of a page, and nothing where nothing is read: everywhere, or else after the count and above it.
fn plain(best: &mut Case, differs: &impl Fn(&Case) -> bool) {
    attempt(best, differs, |case| case.secure_avic = false);
    attempt(best, differs, |case| case.pages.truncate(case.pages.len() / PAGE * PAGE));
    if best.pages.len().is_multiple_of(PAGE) {
        attempt(best, differs, |case| {
            let set = pages::read(&case.pages);
            pages::write(&set, 0, &mut case.pages);
        });
    }
    for (page, entries) in pages::read(&best.pages).iter().enumerate() {
        let start = page * PAGE;
        for unused in [start + 4..start + 16, pages::place(page, entries.len())..start + PAGE] {
            attempt(best, differs, |case| case.pages[unused].fill(0));
        }
    }
}

fn fewer_pages(best: &mut Case, differs: &impl Fn(&Case) -> bool) {
    for page in (0..best.pages.len() / PAGE).rev() {
        attempt(best, differs, |case| drop(case.pages.drain(page * PAGE..(page + 1) * PAGE)));
    }
}

fn fewer_entries(best: &mut Case, differs: &impl Fn(&Case) -> bool) {
    for page in 0..best.pages.len() / PAGE {
        for position in (0..MOST).rev() {
            attempt(best, differs, |case| pages::remove_at(&mut case.pages, page, position));
        }
    }
}

fn fewer_bits(best: &mut Case, differs: &impl Fn(&Case) -> bool) {
    let set = pages::read(&best.pages);
    for (page, position) in positions(&set) {
        for at in (pages::place(page, position)..pages::place(page, position + 1)).step_by(4) {
            attempt(best, differs, |case| pages::set_word(&mut case.pages, at, 0));
            for bit in (0..32).rev() {
                let old = pages::word(&best.pages, at);
                if old >> bit & 1 == 1 {
                    attempt(best, differs, |case| pages::set_word(&mut case.pages, at, old & !(1 << bit)));
                }
            }
        }
    }
}

fn positions(set: &[Vec<Entry>]) -> impl Iterator<Item = (usize, usize)> {
    set.iter().enumerate().flat_map(|(page, entries)| (0..entries.len()).map(move |position| (page, position)))
}
