//! Replays table.txt, whose answers are those of the model (tests/lists/make_table.py writes it and says how a line reads), by the crate's own types.

mod replay;

use replay::edited;
use snp_cpuid::exports;
use snp_cpuid::{Found, NotPooled, Options, Origin, PLACES, Processor, Refusal, Register, Table, TableComparison};
use std::collections::BTreeMap;

const TABLE_BYTES: usize = size_of::<exports::Table>();

fn number(word: &str) -> u64 {
    u64::from_str_radix(word, 16).expect("a number")
}

/// The bytes of a table's struct.
fn bytes(table: &Table) -> Vec<u8> {
    let exports::Table { registers, origins } = table.memory();
    registers.iter().flat_map(|word| word.to_le_bytes()).chain(origins.iter().flat_map(|word| word.to_le_bytes())).collect()
}

/// The table of a struct's bytes.
fn table(bytes: &[u8]) -> Table {
    let (registers, origins) = bytes.split_at(4 * 4 * PLACES);
    let mut memory = exports::Table { registers: [0; 4 * PLACES], origins: [0; PLACES] };
    memory.registers.iter_mut().zip(registers.chunks_exact(4)).for_each(|(word, bytes)| *word = u32::from_le_bytes(bytes.try_into().unwrap()));
    memory.origins.iter_mut().zip(origins.chunks_exact(8)).for_each(|(word, bytes)| *word = u64::from_le_bytes(bytes.try_into().unwrap()));
    memory.into()
}

/// Number, leaf, has_subleaf, subleaf and s.
fn refusal(refusal: Option<Refusal>) -> Vec<u64> {
    let details = refusal.map(|refusal| refusal.details()).unwrap_or_default();
    let subleaf = details.subleaf;
    vec![
        refusal.map_or(0, |refusal| refusal.number()).into(),
        details.leaf.into(),
        subleaf.is_some().into(),
        subleaf.unwrap_or(0).into(),
        details.s.into(),
    ]
}

fn counts(table: &Table) -> Vec<u64> {
    vec![table.row_count() as u64, table.max_extended_state()]
}

fn row(found: Option<Found>) -> Vec<u64> {
    let Some(Found { result: r, origin }) = found else { return vec![0; 8] };
    let (origin, page, entry) = match origin {
        Origin::MadeHere => (1, 0, 0),
        Origin::Entry { page, entry } => (2, page as u64, entry as u64),
        Origin::Unknown => (3, 0, 0),
        other => panic!("{other}"),
    };
    vec![1, r.eax.into(), r.ebx.into(), r.ecx.into(), r.edx.into(), origin, page, entry]
}

/// The guest's row with a size of the list's own, which no `State` has; where the table gives just that size, the crate's own answer too.
fn kept_row(table: &Table, p: Processor, size: u32, (leaf, subleaf, enforce): (u32, Option<u32>, bool)) -> Vec<u64> {
    let exports::Table { registers, origins } = table.memory();
    let (registers, origins, named, number) = (registers.as_ptr(), origins.as_ptr(), subleaf.is_some(), subleaf.unwrap_or(0));
    // SAFETY: the arrays are the table's own, and the function only reads them
    let f = unsafe {
        exports::snp_cpuid_table_guest_find_kept(registers, origins, p.x2apic, p.xcr0, p.xss, p.osxsave, size, leaf, named, number, enforce)
    };
    let numbers = vec![f.found.into(), f.eax.into(), f.ebx.into(), f.ecx.into(), f.edx.into(), f.origin.into(), f.page, f.entry.into()];
    if let Some(state) = table.state(p.xcr0, p.xss).ok().filter(|state| state.size() == size) {
        assert_eq!(row(table.guest_row_kept(p, state, leaf, subleaf, enforce)), numbers);
    }
    numbers
}

fn compared(answer: TableComparison) -> Vec<u64> {
    let named = |answer, leaf: u32, subleaf: Option<u32>, register: u64| {
        vec![answer, leaf.into(), subleaf.is_some().into(), subleaf.unwrap_or(0).into(), register]
    };
    let index = |register| [Register::Eax, Register::Ebx, Register::Ecx, Register::Edx].iter().position(|own| *own == register).unwrap() as u64;
    match answer {
        TableComparison::Rises => vec![0; 5],
        TableComparison::NoRow { leaf, subleaf } => named(1, leaf, subleaf, 0),
        TableComparison::Differs { leaf, subleaf, register } => named(2, leaf, subleaf, index(register)),
        TableComparison::Beyond { leaf, subleaf } => named(3, leaf, subleaf, 0),
        TableComparison::MaskLacks => vec![4, 0, 0, 0, 0],
        other => panic!("{other}"),
    }
}

/// What the lines before have made.
struct Standing {
    pages: Vec<u8>,
    image: Vec<u8>,
    table: Table,
}

/// An answer: its numbers, and the bytes that it leaves, of which the list has the edits that make them of others.
struct Answer {
    numbers: Vec<u64>,
    bytes: Option<(Vec<u8>, Vec<u8>)>,
}

impl Standing {
    /// A table that is made here, which the next lines ask.
    fn filled(&mut self, numbers: Vec<u64>, made: Table) -> Answer {
        self.table = made;
        Answer { numbers: [numbers, counts(&self.table)].concat(), bytes: Some((vec![0; TABLE_BYTES], bytes(&self.table))) }
    }

    fn build(&mut self, options: Options) -> Answer {
        let built = Table::build(&self.pages, options);
        let mut again = table(&[0xA5; TABLE_BYTES]);
        let answer = again.rebuild(&self.pages, options);
        assert_eq!(built.as_ref().err(), answer.as_ref().err());
        assert!(built.map_or(true, |built| bytes(&built) == bytes(&again)));
        self.filled(refusal(answer.err()), again)
    }

    fn pool(&mut self, options: Options, lengths: &str) -> Answer {
        let lengths: Vec<u64> = lengths.split(',').map(number).collect();
        match Table::pool(&self.pages, &lengths, options) {
            Ok(table) => self.filled([refusal(None), vec![0]].concat(), table),
            Err(NotPooled { refusal: why, server }) => self.filled([refusal(Some(why)), vec![server.unwrap_or(0) as u64]].concat(), Table::new()),
        }
    }

    fn read(&mut self) -> Answer {
        let read = Table::try_from(&self.image[..]);
        self.filled(vec![read.is_ok().into()], read.unwrap_or_default())
    }

    fn guest(&self, processor: Processor) -> Answer {
        let seen = self.table.guest(processor);
        let (why, seen) = (seen.as_ref().err().copied(), seen.unwrap_or_default());
        Answer { numbers: [refusal(why), counts(&seen)].concat(), bytes: Some((bytes(&self.table), bytes(&seen))) }
    }

    fn carry(&self, from: u32, to: u32, xcr0: u64, xss: u64) -> Answer {
        let mut carried = self.table.clone();
        let answer = carried.carry_in_place(from, to, xcr0, xss);
        Answer { numbers: refusal(answer.err())[..1].to_vec(), bytes: Some((bytes(&self.table), bytes(&carried))) }
    }

    fn write(&self, room: usize, write: fn(&Table, &mut [u8]) -> Result<usize, Refusal>) -> Answer {
        let mut out = vec![0xA5; room];
        let length = write(&self.table, &mut out);
        let numbers = [refusal(length.err()), vec![length.unwrap_or(0) as u64]].concat();
        Answer { numbers, bytes: Some((vec![0xA5; room], out)) }
    }

    /// The answer to a question.
    fn ask(&mut self, name: &str, words: &[&str]) -> Answer {
        if name == "compare" {
            let other = table(&edited(bytes(&self.table), words[0]));
            return Answer { numbers: compared(self.table.compare(&other)), bytes: None };
        }
        let n: Vec<u64> = words.iter().filter(|word| !word.contains(',')).map(|word| number(word)).collect();
        let options = |n: &[u64]| Options::new().secure_avic(n[0] == 1).edition(n[1] as u32);
        let processor = |n: &[u64]| Processor::new(n[0] as u32).xcr0(n[1]).xss(n[2]).osxsave(n[3] == 1);
        let place = |n: &[u64]| (n[0] as u32, (n[1] == 1).then_some(n[2] as u32), n[3] == 1);
        let numbers = match name {
            "build" => return self.build(options(&n)),
            "pool" => return self.pool(options(&n), words[2]),
            "read" => return self.read(),
            "guest" => return self.guest(processor(&n)),
            "carry" => return self.carry(n[0] as u32, n[1] as u32, n[2], n[3]),
            "image" => return self.write(n[0] as usize, Table::write_image),
            "kvm" => return self.write(n[0] as usize, Table::write_kvm),
            "counts" => counts(&self.table),
            "fingerprint" => {
                let digest = self.table.fingerprint().bytes().to_vec();
                return Answer { numbers: counts(&self.table), bytes: Some((vec![0xA5; digest.len()], digest)) };
            }
            "state" => self.table.state(n[0], n[1]).map_or_else(|why| vec![why.number().into(), 0], |state| vec![0, state.size().into()]),
            "find" => {
                let (leaf, subleaf, enforce) = place(&n);
                row(self.table.lookup(leaf, subleaf, enforce))
            }
            "guest_find" => {
                let (leaf, subleaf, enforce) = place(&n[4..]);
                let found = self.table.guest_row(processor(&n), leaf, subleaf, enforce);
                [vec![found.err().map_or(0, |why| why.number()).into()], row(found.unwrap_or(None))].concat()
            }
            "guest_find_kept" => {
                let (leaf, subleaf, enforce) = place(&n[5..]);
                kept_row(&self.table, processor(&n), n[4] as u32, (leaf, subleaf, enforce))
            }
            other => panic!("a question that this test does not know: {other}"),
        };
        Answer { numbers, bytes: None }
    }
}

#[test]
fn answers_and_memory_are_the_models() {
    let list = std::fs::read_to_string("tests/table.txt").expect("the list");
    let mut standing = Standing { pages: vec![], image: vec![], table: Table::new() };
    let mut asked: BTreeMap<&str, usize> = BTreeMap::new();
    for line in list.lines() {
        let Some((question, answer)) = line.split_once('|') else {
            match line.split_once(' ').expect("a kind and edits") {
                ("p", edits) => standing.pages = edited(standing.pages, edits),
                ("i", edits) => standing.image = edited(standing.image, edits),
                (_, edits) => standing.table = table(&edited(bytes(&standing.table), edits)),
            }
            continue;
        };
        let words: Vec<&str> = question.split_whitespace().collect();
        let mut expected: Vec<&str> = answer.split_whitespace().collect();
        let Answer { numbers, bytes } = standing.ask(words[0], &words[1..]);
        if let Some((old, new)) = bytes {
            let word = expected.pop().expect("edits");
            assert!(new == if word == "z" { vec![0; TABLE_BYTES] } else { edited(old, word) }, "{line}");
        }
        assert_eq!(numbers, expected.into_iter().map(number).collect::<Vec<_>>(), "{line}");
        *asked.entry(words[0]).or_default() += 1;
    }
    assert!(asked.len() == 14 && asked.values().all(|&count| count >= 9), "{asked:?}");
}
