//! The places of a table: which row stands where in its memory.

/// How many rows a table of any content can have: one at each place.
pub const PLACES: usize = 88;

/// Leaves that stand one after another: the first place, the first leaf and how many there are, and how many subleaves each has where it has them.
struct Run {
    first: usize,
    leaf: u32,
    leaves: usize,
    subleaves: Option<usize>,
}

const fn run(first: usize, leaf: u32, leaves: usize, subleaves: Option<usize>) -> Run {
    Run { first, leaf, leaves, subleaves }
}

/// The places, by rising leaf and subleaf.
const RUNS: [Run; 11] = [
    run(0, 0, 2, None),
    run(2, 5, 1, None),
    run(3, 7, 1, Some(1)),
    run(4, 0xB, 1, Some(2)),
    run(6, 0xD, 1, Some(64)),
    run(70, 0x8000_0000, 9, None),
    run(79, 0x8000_000A, 1, None),
    run(80, 0x8000_0019, 2, None),
    run(82, 0x8000_001D, 1, Some(4)),
    run(86, 0x8000_001E, 2, None),
    // the end
    run(PLACES, 0, 0, None),
];

const NAMES: [(u32, Option<u32>); PLACES] = names();

const fn names() -> [(u32, Option<u32>); PLACES] {
    let (mut names, mut place, mut at) = ([(0, None); PLACES], 0, 0);
    while place < PLACES {
        if place == RUNS[at + 1].first {
            at += 1;
        }
        let Run { first, leaf, leaves, subleaves } = RUNS[at];
        let offset = place - first;
        names[place] = match subleaves {
            None => (leaf + offset as u32, None),
            Some(_) => (leaf, Some(offset as u32)),
        };
        assert!(
            offset
                < leaves
                    * match subleaves {
                        None => 1,
                        Some(count) => count,
                    },
            "each run ends where the next begins"
        );
        place += 1;
    }
    names
}

/// The leaf and subleaf whose row stands at a place.
pub(crate) fn at(place: usize) -> (u32, Option<u32>) {
    NAMES[place]
}
