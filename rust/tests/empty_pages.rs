//! Empty pages are passed over by a loop: a million in a row, in a thread with a small stack. The memory is zeros that nothing writes, so it is never
//! there.

use snp_cpuid::{Options, Origin, PAGE_BYTES, Refusal, build, compare, first_entry, write_image};
use std::thread::Builder;

const MANY: usize = 1_000_000;
const STACK: usize = 64 * 1024;

/// Runs in a thread whose stack has no room for a call a page.
fn with_small_stack(test: impl FnOnce() + Send + 'static) {
    Builder::new().stack_size(STACK).spawn(test).unwrap().join().unwrap();
}

fn shipped() -> Vec<u8> {
    std::fs::read("../tests/data/epyc-milan.pages").unwrap()
}

#[test]
fn a_million_empty_pages_change_no_table() {
    with_small_stack(|| {
        let pages = shipped();
        let mut longer = vec![0; pages.len() + MANY * PAGE_BYTES];
        longer[..pages.len()].copy_from_slice(&pages);
        let (mut image, mut same) = ([0; 1024], [0; 1024]);
        let length = write_image(&pages, Options::new(), &mut image).unwrap();
        assert_eq!(write_image(&longer, Options::new(), &mut same), Ok(length));
        assert_eq!(image, same);
        assert!(matches!(compare(&pages, &longer, Options::new()), snp_cpuid::Comparison::Rises));
    });
}

#[test]
fn an_entry_after_a_million_empty_pages_is_read() {
    with_small_stack(|| {
        let mut pages = vec![0; (MANY + 1) * PAGE_BYTES];
        assert_eq!(build(&pages, Options::new()).unwrap_err(), Refusal::MissingRequiredResult(1, None));
        // one entry, of leaf 1: the next leaf of the list is the first that is missing
        let last = MANY * PAGE_BYTES;
        pages[last] = 1;
        pages[last + 16] = 1;
        assert_eq!(build(&pages, Options::new()).unwrap_err(), Refusal::MissingRequiredResult(5, None));
        assert_eq!(first_entry(&pages, 1, 0), Ok(Some(Origin::Entry { page: MANY, entry: 0 })));
    });
}
