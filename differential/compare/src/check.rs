//! One page set, through the Rust, through the port under both editions of the AVX rule, and through the Rust with the edits of docs/OPENHCL.md. Any
//! disagreement is an `Err` that says which.

use oracle::Answer;
use oracle::Refusal;
use oracle::Row;
use port::Asked;
use port::Built;
use port::Found;
use port::Options;
use port::Written;

use crate::pages;
use crate::random::Random;

/// The functions that are held against the Rust; a test puts wrong ones in their place.
#[derive(Clone, Copy)]
pub struct Port {
    pub build: fn(&[u8], Options) -> Built,
    pub lookup: fn(&[u8], Options, Asked) -> Found,
    pub write_image: fn(&[u8], Options, &mut [u8]) -> Written,
    /// The whole answer by OpenHCL's own interface.
    pub replaced: fn(&[u8], bool) -> Answer,
}

pub const PORT: Port = Port { build: port::build, lookup: port::lookup, write_image: port::write_image, replaced: replaced::answer };

/// How much is asked besides the answer and one image.
#[derive(Clone, Copy, Default)]
pub enum Depth {
    #[default]
    Answer,
    /// Buffers of every interesting length, and some lookups, picked by this seed.
    Sampled(u64),
    /// The same with every lookup of `LEAVES` and `SUBLEAVES`.
    Every,
}

#[derive(Clone, Default)]
pub struct Case {
    pub pages: Vec<u8>,
    pub secure_avic: bool,
    pub depth: Depth,
    /// Whether reserved bytes stay as the family made them.
    pub unclean: bool,
}

/// What was asked and answered.
#[derive(Clone, Copy, Default)]
pub struct Seen {
    /// 0 where accepted.
    pub refusal: Refusal,
    pub lookups: u64,
    pub writes: u64,
    pub short_buffers: u64,
    /// Whether the last edition hides a feature that edition 1 shows.
    pub hidden: bool,
}

/// More room than the longest image, 732 bytes, needs.
const ROOM: usize = 800;

/// Leaves to look up: kept ones, their neighbours, the hypervisor's, and the ends.
const LEAVES: [u32; 40] = [
    0, 1, 2, 4, 5, 6, 7, 8, 0xa, 0xb, 0xc, 0xd, 0xe, 0x40000000, 0x40000003, 0x7fffffff, 0x80000000, 0x80000001, 0x80000002, 0x80000003, 0x80000004,
    0x80000005, 0x80000006, 0x80000007, 0x80000008, 0x80000009, 0x8000000a, 0x8000000b, 0x80000018, 0x80000019, 0x8000001a, 0x8000001b, 0x8000001c,
    0x8000001d, 0x8000001e, 0x8000001f, 0x80000020, 0x8000000d, 0xfffffffe, 0xffffffff,
];

const SUBLEAVES: [u32; 18] = [0, 1, 2, 3, 4, 5, 6, 7, 8, 9, 11, 12, 13, 62, 63, 64, 0x80000000, 0xffffffff];

pub fn check(port: &Port, case: &Case) -> Result<Seen, String> {
    let answer = with_the_least_shift(with_the_reserved_bytes(oracle::answer(&case.pages, case.secure_avic), case)?);
    let mut seen = Seen {
        refusal: match &answer {
            Answer::Table { .. } => Refusal::default(),
            Answer::Refusal(refusal) => *refusal,
            Answer::Unknown(text) => return Err(format!("the Rust gave no answer known to document 01: {text}")),
        },
        ..Seen::default()
    };
    same("the edited cvm_cpuid", &answer, &(port.replaced)(&case.pages, case.secure_avic))?;
    let mut answers = vec![(1, answer)];
    for (edition, cleared) in LATER_EDITIONS {
        let answer = with_the_clears(&answers[answers.len() - 1].1, cleared);
        answers.push((edition, answer));
    }
    seen.hidden = answers[0].1 != answers[answers.len() - 1].1;
    for (edition, answer) in &answers {
        let options = Options::new().secure_avic(case.secure_avic).edition(*edition);
        let one = One { port, case, options, answer };
        one.check(&mut seen).map_err(|what| format!("edition {edition}: {what}"))?;
    }
    Ok(seen)
}

/// What the port must answer where the Rust gives this: the same, but for refusal 17 where a reserved byte of an entry below its page's count is not
/// zero (document 02, P10); 1 and 2, which the Rust tells, come before it. The Rust reads no such byte: with zeros there it must answer the same.
fn with_the_reserved_bytes(answer: Answer, case: &Case) -> Result<Answer, String> {
    if matches!(answer, Answer::Refusal(Refusal { number: 1 | 2, .. }) | Answer::Unknown(_)) {
        return Ok(answer);
    }
    let Some(leaf) = pages::first_unclean(&case.pages) else {
        return Ok(answer);
    };
    let mut clean = case.pages.clone();
    pages::clean(&mut clean);
    let clean = oracle::answer(&clean, case.secure_avic);
    if clean != answer {
        return Err(format!("the Rust reads a reserved byte\n  as it is: {answer:x?}\n  with zeros: {clean:x?}"));
    }
    Ok(Answer::Refusal(Refusal { number: 17, leaf, ..Refusal::default() }))
}

/// What the port must answer where the Rust gives this: the same, but for the shift in B.1.EAX where v, in EBX, is no power of two. There the Rust
/// has the place of the highest one bit of v, and document 02, P5, one more.
fn with_the_least_shift(answer: Answer) -> Answer {
    match answer {
        Answer::Table { mut rows, mask } => {
            for row in rows.iter_mut().filter(|row| (row.leaf, row.subleaf) == (0xb, Some(1)) && !row.registers[1].is_power_of_two()) {
                row.registers[0] += 1;
            }
            Answer::Table { rows, mask }
        }
        other => other,
    }
}

/// Document 02, P7: the editions after the first, which is the Rust's; of each, the leaves of which it clears bits of ECX that the one before it leaves.
const LATER_EDITIONS: [(u32, &[(u32, u32)]); 1] = [(2, &[(1, 1 << 29), (0x80000001, 1 << 11 | 1 << 16)])];

/// What the port must answer under an edition where it answers so under the one before it: the same, but for its bits where XFEM, the Rust's own
/// D.0.EAX, lacks bit 2.
fn with_the_clears(answer: &Answer, cleared: &[(u32, u32)]) -> Answer {
    let mut later = answer.clone();
    if let Answer::Table { rows, .. } = &mut later {
        let xfem = rows.iter().find(|row| (row.leaf, row.subleaf) == (0xd, Some(0))).map_or(0, |row| row.registers[0]);
        if xfem & 1 << 2 == 0 {
            for row in rows {
                row.registers[2] &= !cleared.iter().filter(|(leaf, _)| *leaf == row.leaf).fold(0, |all, (_, bits)| all | bits);
            }
        }
    }
    later
}

fn same<T: PartialEq + std::fmt::Debug>(what: &str, rust: &T, port: &T) -> Result<(), String> {
    if rust == port {
        return Ok(());
    }
    Err(format!("{what}\n  by the Rust: {rust:x?}\n  by the port: {port:x?}"))
}

fn expected_built(answer: &Answer) -> Built {
    match answer {
        Answer::Table { rows, mask } => Built { row_count: rows.len() as u64, max_extended_state: *mask, ..Built::default() },
        Answer::Refusal(Refusal { number, leaf, subleaf, s }) => {
            Built { number: *number, leaf: *leaf, has_subleaf: subleaf.is_some().into(), subleaf: subleaf.unwrap_or(0), s: *s, ..Built::default() }
        }
        Answer::Unknown(_) => unreachable!("returned before"),
    }
}

/// What a write into this much room gives. Refusals of building come before 9.
fn expected_written(answer: &Answer, room: usize) -> Written {
    let built = expected_built(answer);
    let length = image_length(answer);
    let written = Written { number: built.number, leaf: built.leaf, has_subleaf: built.has_subleaf, subleaf: built.subleaf, s: built.s, length: 0 };
    match answer {
        Answer::Table { .. } if room < length => Written { number: 9, ..written },
        _ => Written { length: length as u64, ..written },
    }
}

/// 21 bytes for a row without subleaf and 25 for one with; 0 where refused.
fn image_length(answer: &Answer) -> usize {
    match answer {
        Answer::Table { rows, .. } => rows.iter().map(|row| if row.subleaf.is_some() { 25 } else { 21 }).sum(),
        _ => 0,
    }
}

/// One page set under one edition, and what the port must answer.
struct One<'a> {
    port: &'a Port,
    case: &'a Case,
    options: Options,
    answer: &'a Answer,
}

impl One<'_> {
    fn check(&self, seen: &mut Seen) -> Result<(), String> {
        let built = (self.port.build)(&self.case.pages, self.options);
        same("build", &expected_built(self.answer), &built)?;
        self.check_writes(seen)?;
        self.check_lookups(seen)
    }

    fn check_writes(&self, seen: &mut Seen) -> Result<(), String> {
        self.check_write(ROOM, 0x5a, seen)?;
        if matches!(self.case.depth, Depth::Answer) {
            return Ok(());
        }
        // The other pattern tells a byte written from one that happened to be the same.
        self.check_write(ROOM, 0xa5, seen)?;
        let length = image_length(self.answer);
        for room in [length, length.saturating_sub(1), length / 2, 1, 0] {
            self.check_write(room, 0x5a, seen)?;
        }
        Ok(())
    }

    fn check_write(&self, room: usize, fill: u8, seen: &mut Seen) -> Result<(), String> {
        let before: [u8; ROOM] = std::array::from_fn(|at| fill ^ at as u8);
        let mut lent = before;
        let written = (self.port.write_image)(&self.case.pages, self.options, &mut lent[..room]);
        let expected = expected_written(self.answer, room);
        same(&format!("write into {room} bytes"), &expected, &written)?;
        let length = expected.length as usize;
        if lent[length..] != before[length..] {
            return Err(format!("write into {room} bytes: a byte from {length} up was changed"));
        }
        if let (Answer::Table { rows, .. }, 1..) = (self.answer, length) {
            check_image(rows, &lent[..length])?;
        }
        seen.writes += 1;
        seen.short_buffers += u64::from(written.number == 9);
        Ok(())
    }

    fn check_lookups(&self, seen: &mut Seen) -> Result<(), String> {
        let mut one = |asked| {
            seen.lookups += 1;
            let found = (self.port.lookup)(&self.case.pages, self.options, asked);
            // document 02, P11: sameness with the Rust means everything but origins, which it has not
            let found = Found { origin: 0, page: 0, entry: 0, ..found };
            same(&format!("{asked:x?}"), &expected_found(self.answer, asked), &found)
        };
        match self.case.depth {
            Depth::Answer => Ok(()),
            Depth::Sampled(seed) => {
                let mut random = Random::new(seed);
                (0..12).try_for_each(|_| {
                    one(Asked {
                        leaf: random.pick(&LEAVES),
                        has_subleaf: random.below(4) > 0,
                        subleaf: random.pick(&SUBLEAVES),
                        enforce: random.below(2) > 0,
                    })
                })
            }
            Depth::Every => (0..LEAVES.len() * SUBLEAVES.len() * 4).try_for_each(|number| {
                one(Asked {
                    leaf: LEAVES[number / 4 / SUBLEAVES.len()],
                    has_subleaf: number & 1 > 0,
                    subleaf: SUBLEAVES[number / 4 % SUBLEAVES.len()],
                    enforce: number & 2 > 0,
                })
            }),
        }
    }
}

/// The image against the rows. Those of the image ascend by leaf, then by subleaf (document 02, P1); the Rust's own order is any, and the oracle
/// gives its rows in this one.
fn check_image(rows: &[Row], image: &[u8]) -> Result<(), String> {
    let found = parse(image)?;
    for pair in found.windows(2) {
        if (pair[0].leaf, pair[0].subleaf) >= (pair[1].leaf, pair[1].subleaf) {
            return Err(format!(
                "image: the row of {:x} {:x?} stands before that of {:x} {:x?}",
                pair[0].leaf, pair[0].subleaf, pair[1].leaf, pair[1].subleaf
            ));
        }
    }
    for (rust, port) in rows.iter().zip(&found) {
        same("image", rust, port)?;
    }
    same("rows in the image", &rows.len(), &found.len())
}

fn parse(image: &[u8]) -> Result<Vec<Row>, String> {
    let mut rows = Vec::with_capacity(32);
    let mut at = 0;
    while at < image.len() {
        let with_subleaf = match image[at] {
            1 => false,
            2 => true,
            other => return Err(format!("image: byte {other} at {at} begins no row")),
        };
        let words = if with_subleaf { 6 } else { 5 };
        let end = at + 1 + 4 * words;
        let bytes = image.get(at + 1..end).ok_or("image: the last row is cut")?;
        let word = |number: usize| u32::from_le_bytes(std::array::from_fn(|byte| bytes[4 * number + byte]));
        rows.push(Row {
            leaf: word(0),
            subleaf: with_subleaf.then(|| word(1)),
            registers: std::array::from_fn(|register| word(words - 4 + register)),
        });
        at = end;
    }
    Ok(rows)
}

/// `leaf_result_ref` is private to the Rust's module; this is its rule over the rows that the Rust built.
fn expected_found(answer: &Answer, asked: Asked) -> Found {
    let Answer::Table { rows, .. } = answer else {
        return Found::default();
    };
    let subleaf = asked.has_subleaf.then_some(asked.subleaf);
    let row = rows.iter().find(|row| {
        row.leaf == asked.leaf
            && match row.subleaf {
                None => !asked.enforce || subleaf.is_none(),
                some => some == subleaf,
            }
    });
    row.map_or(Found::default(), |row| {
        let [eax, ebx, ecx, edx] = row.registers;
        Found { found: 1, eax, ebx, ecx, edx, ..Found::default() }
    })
}
