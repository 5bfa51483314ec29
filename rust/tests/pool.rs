//! Replays pool.txt, whose answers are those of the model (tests/lists/make_pool.py writes it and says how a line reads); and what the crate makes of
//! a pool.

mod replay;

use replay::{edited, shipped};
use snp_cpuid::exports::{Found as Numbers, Pooled, Written, snp_cpuid_pool, snp_cpuid_pool_lookup, snp_cpuid_write_pool_image};
use snp_cpuid::{MOST_IMAGE_BYTES, MOST_SERVERS, NotPooled, Options, Origin, Refusal, build, pool, pool_lookup, write_pool_image};
use std::collections::BTreeMap;

fn number(text: &str) -> u32 {
    u32::from_str_radix(text, 16).expect("a number")
}

fn subleaf(text: &str) -> Option<u32> {
    (text != "-").then(|| number(text))
}

/// The numbers of a list.
fn list(text: &str) -> Vec<u64> {
    text.split(',').filter(|&number| number != "-").map(|number| number.parse().expect("a number")).collect()
}

/// A pool as a line names it.
struct Question {
    sets: Vec<Vec<u8>>,
    /// none where they are the sets' own: only those can be asked of the crate
    lengths: Option<Vec<u64>>,
    options: Options,
}

impl Question {
    fn of(words: &[&str], known: &[Vec<u8>]) -> Question {
        let options = Options::new().secure_avic(words[1] == "1").edition(number(words[2]));
        let sets = list(words[3]).into_iter().map(|number| known[number as usize].clone()).collect();
        Question { sets, lengths: (words[4] != "=").then(|| list(words[4])), options }
    }

    /// What the library takes.
    fn slices(&self) -> (Vec<u8>, Vec<u64>) {
        (self.sets.concat(), self.lengths.clone().unwrap_or_else(|| self.sets.iter().map(|set| set.len() as u64).collect()))
    }

    fn pooled(&self) -> Pooled {
        let (pages, lengths) = self.slices();
        let Options { secure_avic, edition, .. } = self.options;
        // SAFETY: both pointers and lengths are those of slices
        unsafe { snp_cpuid_pool(pages.as_ptr(), pages.len(), lengths.as_ptr(), lengths.len(), secure_avic, edition) }
    }

    fn written(&self, out: &mut [u8]) -> Written {
        let (pages, lengths) = self.slices();
        let Options { secure_avic, edition, .. } = self.options;
        let (length, servers, room, out) = (pages.len(), lengths.len(), out.len(), out.as_mut_ptr());
        // SAFETY: all pointers and lengths are those of slices
        unsafe { snp_cpuid_write_pool_image(pages.as_ptr(), length, lengths.as_ptr(), servers, secure_avic, edition, out, room) }
    }

    fn found(&self, leaf: u32, subleaf: Option<u32>, enforce: bool) -> Numbers {
        let (pages, lengths) = self.slices();
        let Options { secure_avic, edition, .. } = self.options;
        let (named, subleaf) = (subleaf.is_some(), subleaf.unwrap_or(0));
        let (length, servers) = (pages.len(), lengths.len());
        // SAFETY: both pointers and lengths are those of slices
        unsafe { snp_cpuid_pool_lookup(pages.as_ptr(), length, lengths.as_ptr(), servers, secure_avic, edition, leaf, named, subleaf, enforce) }
    }

    /// The pool's row count and mask, or its refusal; and its image.
    fn build(&self) -> (String, Option<Vec<u8>>) {
        let p = self.pooled();
        let by_crate = self.lengths.is_none().then(|| pool(&self.sets, self.options));
        if p.number != 0 {
            assert_eq!((p.row_count, p.max_extended_state), (0, 0), "a refused pool has no table");
            if let Some(refused) = by_crate {
                let NotPooled { refusal, server } = refused.expect_err("the library refuses it");
                assert_eq!((refusal.number(), server.unwrap_or(0)), (p.number, p.server as usize));
                assert_eq!(server.is_none(), matches!(p.number, 18 | 19));
                // a server's own refusal is the one that it has by itself
                assert!(server.is_none_or(|server| build(&self.sets[server], self.options) == Err(refusal)));
            }
            return (format!("{} {}", refused(p.number, p.leaf, p.has_subleaf, p.subleaf, p.s), p.server), None);
        }
        assert_eq!(Pooled { row_count: p.row_count, max_extended_state: p.max_extended_state, ..Pooled::default() }, p);
        let mut out = [0; MOST_IMAGE_BYTES];
        let written = self.written(&mut out);
        let image = out[..written.length as usize].to_vec();
        if let Some(table) = by_crate {
            let table = table.expect("the library accepts it");
            assert_eq!(
                (&table.image()[..], table.max_extended_state(), table.rows().count() as u64),
                (&image[..], p.max_extended_state, p.row_count)
            );
            // each row came from where the first server's did
            let first = build(&self.sets[0], self.options).expect("the first server is accepted");
            assert!(table.rows().all(|row| first.find(row.leaf, row.subleaf).map(|own| own.origin) == Some(row.origin)));
        }
        (format!("{} {:x}", p.row_count, p.max_extended_state), Some(image))
    }

    fn lookup(&self, leaf: u32, subleaf: Option<u32>, enforce: bool) -> String {
        let f = self.found(leaf, subleaf, enforce);
        if self.lengths.is_none() {
            let found = pool_lookup(&self.sets, self.options, leaf, subleaf, enforce);
            assert_eq!(found.map(|row| row.result.eax), (f.found != 0).then_some(f.eax));
            // the table that the crate reads from the image gives the same
            assert_eq!(pool(&self.sets, self.options).ok().and_then(|table| table.lookup(leaf, subleaf, enforce)), found);
        }
        match f.origin {
            0 => {
                assert_eq!(f, Numbers::default());
                "-".into()
            }
            1 => format!("{:x} {:x} {:x} {:x} made", f.eax, f.ebx, f.ecx, f.edx),
            _ => format!("{:x} {:x} {:x} {:x} {:x}:{:x}", f.eax, f.ebx, f.ecx, f.edx, f.page, f.entry),
        }
    }

    /// The answer of a write into a buffer of this room, and what it wrote; bytes that it does not write stay.
    fn write(&self, room: usize) -> (String, Option<Vec<u8>>) {
        let mut out = vec![0xA5; room];
        let w = self.written(&mut out);
        let length = w.length as usize;
        assert!(out[length..].iter().all(|&byte| byte == 0xA5));
        if self.lengths.is_none() {
            let mut by_crate = vec![0xA5; room];
            let answer = write_pool_image(&self.sets, self.options, &mut by_crate);
            assert_eq!((answer.map_err(|refusal| refusal.number()), by_crate), (if w.number == 0 { Ok(length) } else { Err(w.number) }, out.clone()));
        }
        match w.number {
            0 => (String::new(), Some(out[..length].to_vec())),
            number => (refused(number, w.leaf, w.has_subleaf, w.subleaf, w.s), None),
        }
    }
}

fn refused(number: u32, leaf: u32, has_subleaf: u32, subleaf: u32, s: u32) -> String {
    format!("r {number} {leaf:x} {} {s}", if has_subleaf == 0 { "-".into() } else { format!("{subleaf:x}") })
}

/// The words before the image, and the image that its edits make of the last one of its length.
fn expected(wanted: &str, letter: &str, images: &mut BTreeMap<usize, Vec<u8>>) -> (String, Option<Vec<u8>>) {
    if letter == "l" || wanted.starts_with("r ") {
        return (wanted.into(), None);
    }
    let words: Vec<&str> = wanted.split(' ').collect();
    let (edits, length) = (words[words.len() - 1], words[words.len() - 2].parse().expect("a length"));
    let image = edited(images.remove(&length).unwrap_or_else(|| vec![0; length]), edits);
    assert_eq!(image.len(), length);
    images.insert(length, image.clone());
    (words[..words.len() - 2].join(" "), Some(image))
}

#[test]
fn answers_are_the_models() {
    let text = std::fs::read_to_string("tests/pool.txt").expect("the list");
    let (mut known, mut images, mut seen): (Vec<Vec<u8>>, _, _) = (vec![], BTreeMap::new(), BTreeMap::new());
    for (at, line) in text.lines().enumerate() {
        if let Some(edits) = line.strip_prefix("s ") {
            known.push(edited(known.last().cloned().unwrap_or_else(shipped), edits));
            continue;
        }
        let (question, wanted) = line.split_once(" | ").expect("a question and its answer");
        let words: Vec<&str> = question.split(' ').collect();
        let asked = Question::of(&words, &known);
        let answer = match words[0] {
            "b" => asked.build(),
            "l" => (asked.lookup(number(words[5]), subleaf(words[6]), words[7] == "1"), None),
            "w" => asked.write(words[5].parse().expect("a length")),
            other => panic!("a line that begins with {other}"),
        };
        assert_eq!(answer, expected(wanted, words[0], &mut images), "line {}: {line}", at + 1);
        *seen.entry(wanted.strip_prefix("r ").map_or("given", |refusal| refusal.split(' ').next().unwrap()).to_string()).or_insert(0) += 1;
    }
    let kinds: Vec<&str> = seen.keys().map(String::as_str).collect();
    assert_eq!(kinds, ["1", "15", "17", "18", "19", "2", "3", "4", "5", "6", "7", "8", "9", "given"], "every answer occurs: {seen:?}");
}

/// The shipped set with one byte of the entry of leaf 1 changed.
fn leaf_1(at: usize, change: impl Fn(u8) -> u8) -> Vec<u8> {
    let mut pages = shipped();
    assert_eq!(pages[64..68], 1u32.to_le_bytes());
    pages[64 + at] = change(pages[64 + at]);
    pages
}

/// Sets of any kind: slices, vectors, arrays.
#[test]
fn kinds_of_sets() {
    let pages = shipped();
    let table = build(&pages, Options::new());
    assert_eq!(pool(&[&pages[..], &pages[..]], Options::new()).ok(), table.clone().ok());
    assert_eq!(pool(&[pages.clone(), pages.clone()], Options::new()).ok(), table.clone().ok());
    assert_eq!(pool(&vec![pages.into_boxed_slice(); MOST_SERVERS], Options::new()).ok(), table.ok());
    assert_eq!(pool(&[[]; 0] as &[[u8; 0]], Options::new()), Err(NotPooled { refusal: Refusal::PoolSets, server: None }));
    assert_eq!(pool(&[[]; 2] as &[[u8; 0]], Options::new()), Err(NotPooled { refusal: Refusal::PagesLength, server: Some(0) }));
}

/// A pool rises to each of its servers, one server more adds no feature, and the first server says where rows came from.
#[test]
fn what_a_pool_is_for() {
    let (fma, movbe) = (leaf_1(32 + 1, |byte| byte & !0x10), leaf_1(32 + 2, |byte| byte & !0x40));
    let two = pool(&[&shipped(), &fma], Options::new()).expect("they differ in features");
    let three = pool(&[&shipped(), &fma, &movbe], Options::new()).expect("they differ in features");
    let ecx = |table: &snp_cpuid::Table| table.row(1, None).expect("a required row").ecx;
    let whole = ecx(&build(&shipped(), Options::new()).unwrap());
    assert_eq!((ecx(&two), ecx(&three)), (whole & !(1 << 12), whole & !(1 << 12 | 1 << 22)));
    // the same entries a page later but for leaf Dh
    let pages = shipped();
    let moved = [&[0; 4096], &pages[4096..], &pages[..4096]].concat();
    let origins = |first: &[u8], second: &[u8]| {
        let table = pool(&[first, second], Options::new()).expect("the same entries");
        [(1, None), (0xD, Some(0)), (0, None)].map(|(leaf, subleaf)| table.find(leaf, subleaf).expect("a required row").origin)
    };
    let entry = |page, entry| Origin::Entry { page, entry };
    assert_eq!(origins(&pages, &moved), [entry(0, 1), entry(1, 0), Origin::MadeHere]);
    assert_eq!(origins(&moved, &pages), [entry(2, 1), entry(1, 0), Origin::MadeHere]);
}

#[test]
fn words() {
    let other = leaf_1(24, |byte| byte ^ 0x20);
    let refused = |sets: &[&[u8]], options| pool(sets, options).expect_err("refused").to_string();
    let pages = shipped();
    let words = "the servers of the pool differ, in a row that all their tables have, elsewhere than in feature bits or the size of the save area";
    assert_eq!(refused(&[&pages, &other], Options::new()), words);
    let sets = format!("a pool has 2 to {MOST_SERVERS} page sets, and their lengths sum to the bytes handed over");
    assert_eq!(refused(&[&pages], Options::new()), sets);
    assert_eq!(refused(&[&pages, &other, &pages[1..]], Options::new()), format!("server 2: {}", Refusal::PagesLength));
    assert_eq!(refused(&[&pages, &[]], Options::new().edition(3)), format!("server 0: {}", Refusal::UnknownEdition));
}
