//! Runs the families over all cores, and sums up.

use std::collections::BTreeSet;
use std::fmt;
use std::io::IsTerminal;
use std::io::stderr;
use std::sync::atomic::AtomicU64;
use std::sync::atomic::Ordering::Relaxed;
use std::thread;
use std::time::Duration;
use std::time::Instant;

use oracle::Refusal;

use crate::check;
use crate::check::Case;
use crate::check::Port;
use crate::check::Seen;
use crate::families::Family;
use crate::families::families;
use crate::pages;
use crate::random::Random;
use crate::shrink;

/// The answers of building: 0 where accepted, else the refusal.
const ANSWERS: [u32; 10] = [0, 1, 2, 3, 4, 5, 6, 7, 8, 17];

/// Counts over some cases.
#[derive(Clone, Default)]
pub struct Counts {
    /// By answer.
    answers: [u64; ANSWERS.len()],
    /// The rows that refusal 3 named.
    missing: BTreeSet<(u32, Option<u32>)>,
    /// The leaves that refusal 17 named.
    unclean: BTreeSet<u32>,
    lookups: u64,
    writes: u64,
    short_buffers: u64,
    /// The sets of which the last edition hides a feature.
    hidden: u64,
}

impl Counts {
    fn add(&mut self, seen: &Seen) {
        let Refusal { number, leaf, subleaf, .. } = seen.refusal;
        self.answers[ANSWERS.iter().position(|answer| *answer == number).expect("an answer of building")] += 1;
        match number {
            3 => drop(self.missing.insert((leaf, subleaf))),
            17 => drop(self.unclean.insert(leaf)),
            _ => {}
        }
        self.lookups += seen.lookups;
        self.writes += seen.writes;
        self.short_buffers += seen.short_buffers;
        self.hidden += u64::from(seen.hidden);
    }

    fn join(&mut self, other: &Self) {
        for (sum, more) in self.answers.iter_mut().zip(other.answers) {
            *sum += more;
        }
        self.missing.extend(&other.missing);
        self.unclean.extend(&other.unclean);
        self.lookups += other.lookups;
        self.writes += other.writes;
        self.short_buffers += other.short_buffers;
        self.hidden += other.hidden;
    }
}

/// The counts of each family.
pub struct Summary(Vec<(&'static str, Counts, Duration)>);

impl fmt::Display for Summary {
    fn fmt(&self, f: &mut fmt::Formatter<'_>) -> fmt::Result {
        let line = |f: &mut fmt::Formatter<'_>, name: &str, counts: &Counts, time: Duration| {
            write!(f, "{name:24}{:>9}", counts.answers.iter().sum::<u64>())?;
            counts.answers.iter().try_for_each(|count| write!(f, "{count:>9}"))?;
            writeln!(f, "{:>7.1} s", time.as_secs_f64())
        };
        write!(f, "{:24}{:>9}{:>9}", "", "sets", "accepted")?;
        ANSWERS[1..].iter().try_for_each(|number| write!(f, "{number:>9}"))?;
        writeln!(f)?;
        let mut all = Counts::default();
        let mut time = Duration::ZERO;
        for (name, counts, taken) in &self.0 {
            line(f, name, counts, *taken)?;
            all.join(counts);
            time += *taken;
        }
        line(f, "all", &all, time)?;
        writeln!(
            f,
            "{} writes, of which {} refused with 9; {} lookups; refusal 3 named {} different rows, 17 {} different leaves",
            all.writes,
            all.short_buffers,
            all.lookups,
            all.missing.len(),
            all.unclean.len()
        )?;
        writeln!(f, "each set under editions 1 and 2, of which the last hides a feature in {} of them", all.hidden)?;
        writeln!(f, "no difference")
    }
}

pub struct Difference {
    pub case: Case,
    family: &'static str,
    number: u64,
    what: String,
}

impl fmt::Display for Difference {
    fn fmt(&self, f: &mut fmt::Formatter<'_>) -> fmt::Result {
        writeln!(f, "DIFFERENCE in \"{}\", case {}; the smallest page set found:", self.family, self.number)?;
        writeln!(f, "{} bytes, secure AVIC {}", self.case.pages.len(), self.case.secure_avic)?;
        for (number, page) in pages::read(&self.case.pages).iter().enumerate() {
            writeln!(f, "page {number}: count {}", pages::word(&self.case.pages, number * pages::PAGE))?;
            for (position, entry) in page.iter().enumerate() {
                let reserved = &self.case.pages[pages::place(number, position)..][pages::RESERVED];
                writeln!(f, "  {:x}.{:x}: {:08x?}, reserved {reserved:02x?}", entry.leaf, entry.subleaf, entry.registers)?;
            }
        }
        write!(f, "{}", self.what)
    }
}

/// All families, or the first difference.
pub fn all(port: &Port, quick: bool, seed: u64) -> Result<Summary, Box<Difference>> {
    let mut lines = Vec::new();
    for family in families() {
        let start = Instant::now();
        let counts = one(port, family, quick, seed)?;
        lines.push((family.name, counts, start.elapsed()));
    }
    Ok(Summary(lines))
}

/// One family. Of several differences that of the lowest number is told, whatever the number of cores.
pub fn one(port: &Port, family: &Family, quick: bool, seed: u64) -> Result<Counts, Box<Difference>> {
    let workers = thread::available_parallelism().map_or(1, usize::from);
    let lowest = AtomicU64::new(u64::MAX);
    let counts = thread::scope(|scope| {
        let work = |worker| work(port, family, (quick, seed), (worker, workers), &lowest);
        let running: Vec<_> = (0..workers).map(|worker| scope.spawn(move || work(worker))).collect();
        let mut counts = Counts::default();
        for worker in running {
            counts.join(&worker.join().expect("a worker ends"));
        }
        counts
    });
    progress(format_args!("{}: done{:24}\n", family.name, ""));
    match lowest.into_inner() {
        u64::MAX => Ok(counts),
        number => Err(Box::new(difference(port, family, seed, number))),
    }
}

/// Writes over the line of the terminal; nothing where standard error is none, as in a log.
fn progress(text: fmt::Arguments<'_>) {
    if stderr().is_terminal() {
        eprint!("\r{text}");
    }
}

fn work(port: &Port, family: &Family, (quick, seed): (bool, u64), (worker, workers): (usize, usize), lowest: &AtomicU64) -> Counts {
    let step = if quick { family.quick_step } else { 1 };
    let mut counts = Counts::default();
    let mut case = Case::default();
    let mut told = Instant::now();
    for number in (0..family.cases).step_by(step as usize).skip(worker).step_by(workers) {
        if number > lowest.load(Relaxed) {
            break;
        }
        make(family, seed, number, &mut case);
        match check::check(port, &case) {
            Ok(seen) => counts.add(&seen),
            Err(_) => {
                lowest.fetch_min(number, Relaxed);
            }
        }
        if worker == 0 && told.elapsed() > Duration::from_secs(1) {
            told = Instant::now();
            progress(format_args!("{}: {number} of {}   ", family.name, family.cases));
        }
    }
    counts
}

pub fn make(family: &Family, seed: u64, number: u64, case: &mut Case) {
    *case = Case { pages: std::mem::take(&mut case.pages), ..Case::default() };
    let start = family.name.bytes().fold(seed, |mixed, byte| mixed.wrapping_mul(257).wrapping_add(byte.into()));
    let mut random = Random::new(start.wrapping_add(number.wrapping_mul(0xd1b54a32d192ed03)));
    (family.make)(number, &mut random, case);
    // The Rust is matched where reserved bytes are zero (document 02, P10); where it tells 1 or 2, old data may stand there.
    if !case.unclean {
        pages::clean(&mut case.pages);
    }
}

fn difference(port: &Port, family: &Family, seed: u64, number: u64) -> Difference {
    let mut case = Case::default();
    make(family, seed, number, &mut case);
    let case = shrink::shrink(&case, |case| check::check(port, case).is_err());
    let what = check::check(port, &case).err().expect("the difference stays");
    Difference { case, family: family.name, number, what }
}
