//! The page sets that are compared, in families. A case is a function of the seed, its family and its number alone, so that any one of
//! them can be made again.

use crate::check::Case;
use crate::check::Depth;
use crate::pages;
use crate::pages::*;
use crate::random::Random;

pub struct Family {
    pub name: &'static str,
    pub cases: u64,
    /// The quick form takes every case whose number is a multiple of this.
    pub quick_step: u64,
    pub make: fn(number: u64, random: &mut Random, case: &mut Case),
}

/// The families of document 01, of which list.txt is a sample. Their reserved bytes are zero where length and counts are lawful.
pub const FAMILIES: [Family; 9] = [
    Family { name: "topology, corners", cases: CORNERS, quick_step: 1, make: topology_corners },
    Family { name: "extended state", cases: 3 << 17, quick_step: 97, make: extended_state },
    Family { name: "one bit", cases: ONE_BIT, quick_step: 1, make: one_bit },
    Family { name: "leaves and subleaves", cases: LEAF_CASES, quick_step: 1, make: leaves },
    Family { name: "faults together", cases: FAULT_SETS, quick_step: 3, make: faults_together },
    Family { name: "lengths, counts, pages", cases: LAYOUTS, quick_step: 1, make: layouts },
    Family { name: "random servers", cases: 2_000_000, quick_step: 200, make: random_server },
    Family { name: "damaged sets", cases: 2_000_000, quick_step: 200, make: damaged },
    Family { name: "topology, all", cases: 4 << 21, quick_step: 1021, make: topology_all },
];

/// Document 02, P10: sets with reserved bytes that are not zero, below the count and beyond.
pub const UNCLEAN: [Family; 2] = [
    Family { name: "reserved, one bit", cases: RESERVED_BITS, quick_step: 1, make: reserved_bits },
    Family { name: "reserved, among faults", cases: 500_000, quick_step: 50, make: reserved_bytes },
];

pub fn families() -> impl Iterator<Item = &'static Family> {
    FAMILIES.iter().chain(&UNCLEAN)
}

/// The digits of a number, each below its bound; the first turns fastest.
fn digits<const N: usize>(number: u64, bounds: [usize; N]) -> [usize; N] {
    let mut rest = number;
    bounds.map(|bound| {
        let digit = rest % bound as u64;
        rest /= bound as u64;
        digit as usize
    })
}

fn bits(number: usize, places: &[u32]) -> u32 {
    places.iter().enumerate().map(|(at, place)| (number as u32 >> at & 1) << place).sum()
}

/// Every s, nc, lps and mt, with t at its boundaries.
fn topology_all(number: u64, random: &mut Random, case: &mut Case) {
    let [t, mt, lps, nc, s] = digits(number, [4, 2, 256, 256, 16]);
    let t = [0, 1, 2, 255][t];
    topology(case, [s, nc, lps, mt, t].map(|input| input as u32));
    case.secure_avic = random.below(2) > 0;
}

const CORNERS: u64 = 6 * 2 * 13 * 11 * 16;

/// nc and lps at boundaries, around 2^s and around each other: where the quick form would else hardly meet an accepted set.
fn topology_corners(number: u64, random: &mut Random, case: &mut Case) {
    let [t, mt, lps, nc, s] = digits(number, [6, 2, 13, 11, 16]);
    let v = 1u32 << s;
    let nc = [0, 1, 2, 126, 127, 128, 254, 255, v - 1, v, v.wrapping_sub(2)][nc] & 0xff;
    let lps = [0, 1, 2, 3, 127, 128, 254, 255, v, v - 1, v + 1, nc, nc + 1][lps] & 0xff;
    let t = [0, 1, 2, 3, 128, 255][t];
    topology(case, [s as u32, nc, lps, mt as u32, t]);
    case.secure_avic = random.below(2) > 0;
    case.depth = Depth::Sampled(random.next());
}

fn topology(case: &mut Case, inputs: [u32; 5]) {
    thread_local!(static BASE: Vec<u8> = bytes_of(&rich()));
    BASE.with(|base| case.pages.clone_from(base));
    // The four places of the five inputs, found by leaf: writing the set anew for each of 8 million cases takes longer than comparing it.
    let [s, nc, lps, mt, t] = inputs;
    let mut change = |leaf, register, fields: u32, value: u32| {
        let position = (0..MOST).find(|position| word(&case.pages, place(0, *position)) == leaf).unwrap();
        let at = place(0, position) + WORDS[2 + register];
        let old = word(&case.pages, at);
        set_word(&mut case.pages, at, old & !fields | value);
    };
    change(0x80000008, ECX, 0xf0ff, s << 12 | nc);
    change(1, EBX, 0xff << 16, lps << 16);
    change(1, EDX, 1 << 28, mt << 28);
    change(0x8000001e, EBX, 0xff << 8, t << 8);
}

fn bytes_of(set: &Set) -> Vec<u8> {
    let mut bytes = Vec::new();
    pages::write(set, 0, &mut bytes);
    bytes
}

/// Every masked D.0.EAX, D.1.EAX and D.1.ECX with every presence of the six components, three times: at AMD's sizes, at random sizes, and
/// with one sum at 2^32 - 1 or 2^32. Bits that the masks take away are random.
fn extended_state(number: u64, random: &mut Random, case: &mut Case) {
    let [present, xfem, features, xss, sizes] = digits(number, [64, 64, 8, 4, 3]);
    let mut set = rich();
    let noise = random.next() as u32;
    entry(&mut set, STATE, 0).registers[EAX] = bits(xfem, &[0, 1, 2, 5, 6, 7]) | noise & !0xe7;
    let one = &mut entry(&mut set, STATE, 1).registers;
    one[EAX] = bits(features, &[0, 1, 3]) | noise & !0xb;
    one[ECX] = bits(xss, &[11, 12]) | noise & !0x1800;
    for (at, subleaf) in COMPONENTS.into_iter().enumerate() {
        if present >> at & 1 == 0 {
            remove(&mut set, STATE, subleaf);
        } else if sizes == 1 {
            entry(&mut set, STATE, subleaf).registers = [0; 4].map(|_| random.register() >> (random.below(2) * 8));
        } else if sizes == 2 && random.below(3) == 0 {
            let size = random.register();
            entry(&mut set, STATE, subleaf).registers[..2].copy_from_slice(&[size, (!size).wrapping_add(random.below(2) as u32)]);
        }
    }
    pages::write(&set, noise as u8, &mut case.pages);
    case.secure_avic = random.below(2) > 0;
    case.depth = Depth::Sampled(random.next());
}

const ONE_BIT: u64 = 2 * 32 * 6 * 40 * 3;

/// One bit turned in a word that is read, of each set, for both choices of secure AVIC.
fn one_bit(number: u64, random: &mut Random, case: &mut Case) {
    let [avic, bit, at, position, base] = digits(number, [2, 32, 6, 40, 3]);
    let set = [minimal, rich, milan][base]();
    pages::write(&set, 0, &mut case.pages);
    let total: usize = set.iter().map(Vec::len).sum();
    let (page, position) = if position % total < set[0].len() { (0, position % total) } else { (1, position % total - set[0].len()) };
    let at = pages::place(page, position) + WORDS[at];
    let old = word(&case.pages, at);
    set_word(&mut case.pages, at, old ^ 1 << bit);
    case.secure_avic = avic > 0;
    case.depth = Depth::Sampled(random.next());
}

const LEAF_CASES: u64 = 2 * 72 * 160;

/// An entry of any leaf near a kept one with any subleaf up to 67 or at an end, before all others or after them. Before them, it shows in
/// the table if its leaf and subleaf are kept.
fn leaves(number: u64, random: &mut Random, case: &mut Case) {
    let [front, subleaf, leaf] = digits(number, [2, 72, 160]);
    let leaf = match leaf as u32 {
        near @ 0..48 => near,
        hypervisor @ 48..64 => 0x40000000 + (hypervisor - 48),
        extended @ 64..128 => 0x80000000 + (extended - 64),
        below @ 128..144 => 0x80000000 - (below - 127),
        end => u32::MAX - (end - 144),
    };
    let subleaf = match subleaf as u32 {
        small @ 0..68 => small,
        end => [0x80000000, 0x80000001, 0x100, u32::MAX][end as usize - 68],
    };
    let mut set = rich();
    let new = Entry { leaf, subleaf, registers: [0; 4].map(|_| random.register()) };
    let page = &mut set[usize::from(leaf == STATE || front == 0)];
    page.insert(if front > 0 { 0 } else { page.len() }, new);
    pages::write(&set, random.next() as u8, &mut case.pages);
    case.secure_avic = random.below(2) > 0;
    case.depth = Depth::Sampled(random.next());
}

/// Single faults: the required rows, INVLPGB, the components missing or too large, the topology, a count, a length.
const FAULTS: usize = REQUIRED.len() + 1 + 2 * COMPONENTS.len() + 6 + 2;
const FAULT_SETS: u64 = (FAULTS * FAULTS * FAULTS) as u64;

/// Up to three faults together, which shows the order of the checks.
fn faults_together(number: u64, random: &mut Random, case: &mut Case) {
    let chosen = digits(number, [FAULTS; 3]);
    let mut set = rich();
    let late = chosen.map(|fault| spoil(&mut set, fault));
    pages::write(&set, 0xee, &mut case.pages);
    for fault in late.into_iter().flatten() {
        fault.spoil(&mut case.pages, random);
    }
    case.secure_avic = random.below(2) > 0;
    case.depth = Depth::Sampled(random.next());
}

/// A fault that the bytes have and the entries can't.
enum Late {
    Count,
    Length,
}

impl Late {
    /// In one of the first two pages; a length that was cut before may leave too little of the second.
    fn spoil(self, bytes: &mut Vec<u8>, random: &mut Random) {
        match self {
            Late::Count => {
                let (asked, count) = (random.below(2), 65 + random.below(3) as u32);
                let page = if bytes.len() < asked * PAGE + 4 { 0 } else { asked };
                set_count(bytes, page, count)
            }
            Late::Length => bytes.truncate(2 * PAGE - 1 - random.below(PAGE - 1)),
        }
    }
}

fn spoil(set: &mut Set, fault: usize) -> Option<Late> {
    let components = COMPONENTS.len();
    if let Some(&(leaf, subleaf)) = REQUIRED.get(fault) {
        remove(set, leaf, subleaf);
        return None;
    }
    // A row that another fault took away is left as it is.
    let mut change = |leaf, subleaf, register: usize, clear: u32, value: u32| {
        for old in set.iter_mut().flatten().filter(|entry| (entry.leaf, entry.subleaf) == (leaf, subleaf)) {
            old.registers[register] = old.registers[register] & !clear | value;
        }
    };
    match fault - REQUIRED.len() {
        0 => change(0x80000008, 0, EBX, 1 << 3, 0),
        n if n <= components => remove(set, STATE, COMPONENTS[n - 1]),
        n if n <= 2 * components => change(STATE, COMPONENTS[n - 1 - components], EBX, 0, u32::MAX),
        n => match n - 2 * components {
            1 => change(1, 0, EDX, 1 << 28, 0),
            2 => change(1, 0, EBX, 0xff << 16, 0),
            3 => change(0x80000008, 0, ECX, 0xf0ff, 0),
            4 => change(0x80000008, 0, ECX, 0, 0xff),
            5 => change(0x8000001e, 0, EBX, 0xff << 8, 2 << 8),
            6 => change(0x80000008, 0, ECX, 0xf000, 0xf000),
            7 => return Some(Late::Count),
            _ => return Some(Late::Length),
        },
    }
    None
}

/// The last is 2,048 pages, of which all but two are empty.
const LENGTHS: [usize; 17] = [0, 1, 15, 16, 4095, 4096, 4097, 8191, 8192, 8193, 12287, 12288, 12289, 65535, 65536, 65537, 2048 * PAGE];
const COUNTS: [u32; 10] = [0, 1, 2, 24, 25, 63, 64, 65, 0x80000000, u32::MAX];
const COUNT_CASES: usize = COUNTS.len() * COUNTS.len() * COUNTS.len();
/// Up to six pages, and the pages that hold leaf Dh, the other leaves, and a second copy of Dh with other values.
const PLACE_CASES: usize = 6 * 6 * 6 * 6;
const LAYOUTS: u64 = (LENGTHS.len() * 3 + COUNT_CASES + PLACE_CASES) as u64;

fn layouts(number: u64, random: &mut Random, case: &mut Case) {
    let number = number as usize;
    let lengths = LENGTHS.len() * 3;
    if number < lengths {
        pages::write(&[minimal, rich, milan][number % 3](), 0, &mut case.pages);
        case.pages.resize(LENGTHS[number / 3], 0);
    } else if number < lengths + COUNT_CASES {
        with_counts(number - lengths, case);
    } else {
        with_places(number - lengths - COUNT_CASES, case);
    }
    case.secure_avic = random.below(2) > 0;
    case.depth = if number.is_multiple_of(10) { Depth::Every } else { Depth::Sampled(random.next()) };
}

/// Three pages, each with 64 entries and a count of its own. Beyond the rows of the set stand duplicates with other values.
fn with_counts(number: usize, case: &mut Case) {
    let counts = digits(number as u64, [COUNTS.len(); 3]).map(|digit| COUNTS[digit]);
    let mut set = rich();
    set.push(set[0].clone());
    for page in &mut set {
        let again = page.clone();
        page.extend(again.into_iter().cycle().map(|entry| Entry { registers: [0x55555555; 4], ..entry }).take(MOST));
        page.truncate(MOST);
    }
    pages::write(&set, 0, &mut case.pages);
    for (page, count) in counts.into_iter().enumerate() {
        set_count(&mut case.pages, page, count);
    }
}

/// The two lists of a good set on any of up to six pages, the others empty. Leaf Dh counts on page 1 alone.
fn with_places(number: usize, case: &mut Case) {
    let [pages, others, state, again] = digits(number as u64, [6; 4]);
    let good = rich();
    let mut set: Set = vec![Vec::new(); pages + 1];
    let other_state = good[1].iter().map(|entry| Entry { registers: [0x22222222; 4], ..*entry });
    if let Some(page) = set.get_mut(again) {
        page.extend(other_state.take(8));
    }
    for (list, at) in good.iter().zip([others, state]) {
        if let Some(page) = set.get_mut(at) {
            page.extend(list);
        }
    }
    pages::write(&set, 0xff, &mut case.pages);
}

/// A server that nobody built: every needed row with random registers, in random order, among entries that must not count.
fn random_server(_number: u64, random: &mut Random, case: &mut Case) {
    let mut set: Set = vec![Vec::new(); 2 + random.below(3)];
    for (leaf, subleaf) in REQUIRED.into_iter().chain(COMPONENTS.map(|subleaf| (STATE, subleaf))) {
        let page = if leaf == STATE { 1 } else { random.below(set.len()) };
        let at = random.below(set[page].len() + 1);
        set[page].insert(at, Entry { leaf, subleaf, registers: [0; 4].map(|_| random.register()) });
    }
    entry(&mut set, 0x80000008, 0).registers[EBX] |= 1 << 3;
    for subleaf in [2, 5, 6, 7] {
        // few sums overflow, or most sets would be refused with 5
        entry(&mut set, STATE, subleaf).registers[EAX] >>= random.pick(&[1, 8, 16]);
        entry(&mut set, STATE, subleaf).registers[EBX] >>= random.pick(&[1, 8, 16]);
    }
    let topology = random_topology(random);
    set_topology(&mut set, topology);
    for _ in 0..random.below(24) {
        distract(&mut set, random);
    }
    pages::write(&set, random.next() as u8, &mut case.pages);
    case.secure_avic = random.below(2) > 0;
    case.depth = if random.below(4) == 0 { Depth::Sampled(random.next()) } else { Depth::Answer };
}

/// Mostly a topology that is accepted.
fn random_topology(random: &mut Random) -> [u32; 5] {
    let below = |random: &mut Random, bound| random.below(bound) as u32;
    match random.below(8) {
        0 => [0, 0, below(random, 2), 0, 0],
        1 | 2 => {
            let nc = below(random, 255);
            [0, nc, nc + 1, 1, below(random, 2)]
        }
        3..6 => {
            let s = 1 + below(random, 7);
            [s, below(random, 1 << s), 1 << s, 1, below(random, 2)]
        }
        6 => [8 + below(random, 8), below(random, 256), below(random, 256), below(random, 2), below(random, 2)],
        _ => [16, 256, 256, 2, 256].map(|bound| below(random, bound)),
    }
}

/// An entry more, kept or not, before or after the others.
fn distract(set: &mut Set, random: &mut Random) {
    let page = random.below(set.len());
    if set[page].len() >= MOST {
        return;
    }
    let (leaf, subleaf) = match random.below(4) {
        0 => (STATE, random.pick(&[0, 1, 2, 3, 5, 9, 11, 13, 63, 64, u32::MAX])),
        1 => random.pick(&REQUIRED),
        2 => (random.pick(&REQUIRED).0, random.below(6) as u32),
        _ => (random.pick(&[0, 2, 4, 6, 0xc, 0x40000000, 0x80000000, 0x80000009, 0x8000001c, 0x80000020]), 0),
    };
    let at = random.below(set[page].len() + 1);
    set[page].insert(at, Entry { leaf, subleaf, registers: [0; 4].map(|_| random.register()) });
}

/// A good set with up to six places damaged, in entries or in bytes.
fn damaged(number: u64, random: &mut Random, case: &mut Case) {
    let mut set = [minimal, rich, milan][number as usize % 3]();
    for _ in 0..random.below(4) {
        damage(&mut set, random);
    }
    pages::write(&set, random.next() as u8, &mut case.pages);
    for _ in 0..random.below(3) {
        damage_bytes(&mut case.pages, random);
    }
    case.secure_avic = random.below(2) > 0;
    case.depth = if random.below(4) == 0 { Depth::Sampled(random.next()) } else { Depth::Answer };
}

fn damage(set: &mut Set, random: &mut Random) {
    let page = random.below(set.len());
    if set[page].is_empty() || set[page].len() >= MOST {
        return;
    }
    let at = random.below(set[page].len());
    match random.below(8) {
        0 => {
            set[page].remove(at);
        }
        1 => {
            let to = random.below(set[page].len());
            set[page].swap(at, to);
        }
        2 => {
            let again = Entry { registers: [0; 4].map(|_| random.register()), ..set[page][at] };
            let to = random.below(set.len());
            let before = random.below(set[to].len() + 1);
            if set[to].len() < MOST {
                set[to].insert(before, again);
            }
        }
        3 => set.insert(page, Vec::new()),
        4 => set[page][at].subleaf = random.pick(&[0, 1, 2, 3, 4, 63, 64, u32::MAX]),
        5 => distract(set, random),
        _ => set[page][at].registers[random.below(4)] = random.register(),
    }
}

fn damage_bytes(bytes: &mut Vec<u8>, random: &mut Random) {
    if bytes.len() < PAGE {
        return;
    }
    let page = random.below(bytes.len() / PAGE);
    match random.below(16) {
        0 => set_count(bytes, page, random.pick(&COUNTS)),
        1 => set_count(bytes, page, random.below(66) as u32),
        2 => bytes.truncate(page * PAGE),
        3 => bytes.resize(bytes.len() + random.pick(&[1, 16, PAGE - 1, PAGE, 2 * PAGE]), 0),
        4 => bytes.rotate_left(page * PAGE),
        5..8 => {
            let at = random.below(bytes.len());
            bytes[at] = random.next() as u8;
        }
        _ => {
            let at = pages::place(page, random.below(40)) + random.below(48);
            bytes[at] ^= 1 << random.below(8);
        }
    }
}

const RESERVED_BITS: u64 = 64 * 64 * 2 * 3;

/// One bit of the reserved bytes of each of the 64 entries of both pages: refusal 17 below the count, and from it on the Rust's answer.
fn reserved_bits(number: u64, random: &mut Random, case: &mut Case) {
    let [bit, position, page, base] = digits(number, [64, MOST, 2, 3]);
    pages::write(&[minimal, rich, milan][base](), 0, &mut case.pages);
    case.pages[place(page, position) + RESERVED.start + bit / 8] = 1 << (bit % 8);
    case.unclean = true;
    case.secure_avic = random.below(2) > 0;
    case.depth = if bit == 0 { Depth::Sampled(random.next()) } else { Depth::Answer };
}

/// Up to three bytes set that the Rust does not read, with up to two faults and among entries that do not count: for the order of 17 and its leaf.
fn reserved_bytes(number: u64, random: &mut Random, case: &mut Case) {
    let mut set = [minimal, rich, milan][number as usize % 3]();
    let faults = random.below(3);
    let late: Vec<Option<Late>> = (0..faults).map(|_| spoil(&mut set, random.below(FAULTS))).collect();
    if random.below(4) == 0 {
        set.push(Vec::new());
    }
    for _ in 0..random.below(6) {
        distract(&mut set, random);
    }
    let fill = random.next() as u8;
    pages::write(&set, random.pick(&[0, fill]), &mut case.pages);
    pages::clean(&mut case.pages);
    case.unclean = true;
    for _ in 0..random.below(4) {
        soil(&mut case.pages, random);
    }
    for fault in late.into_iter().flatten() {
        fault.spoil(&mut case.pages, random);
    }
    case.secure_avic = random.below(2) > 0;
    case.depth = if random.below(4) == 0 { Depth::Sampled(random.next()) } else { Depth::Answer };
}

/// A byte that the Rust does not read: a reserved one of an entry below the count, at it or above it, any of an entry above, one of XCR0_IN or
/// XSS_IN, or one after the count.
fn soil(bytes: &mut [u8], random: &mut Random) {
    let page = random.below(bytes.len() / PAGE);
    let count = word(bytes, page * PAGE) as usize;
    let unused = count + random.below(MOST + 1 - count);
    let at = match random.below(8) {
        0..4 if count > 0 => place(page, random.below(count)) + RESERVED.start + random.below(8),
        4 if count < MOST => place(page, count) + RESERVED.start + random.below(8),
        5 if unused < MOST => place(page, unused) + random.below(48),
        6 if count > 0 => place(page, random.below(count)) + 8 + random.below(16),
        _ => page * PAGE + 4 + random.below(12),
    };
    bytes[at] = 1 + random.below(255) as u8;
}
