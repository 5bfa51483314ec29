//! What a file holds, told apart by its bytes, and the pages or the table that it gives. Every command reads its files by this.

pub mod dump;
mod libcpuid;
pub mod list;
mod log;
mod one_page;
mod text;

use crate::pages::{Entry, PAGE_ENTRIES, read_by_table, two_pages};
use crate::reasons::{self, Reason};
use crate::source::{image, pool_tables};
use crate::standing::start;
use crate::words::counted;
use snp_cpuid::{PAGE_BYTES, Refusal, Table};

/// What a file holds.
#[derive(Clone, Copy, Debug, PartialEq, Eq)]
pub enum Kind {
    Pages,
    /// one page that has leaf Dh too, as QEMU, OVMF and Linux have it
    OnePage,
    Image,
    List,
    /// the text of `cpuid -r` or of InstLatx64
    Dump,
    /// the text of `cpuid_tool --save`
    Libcpuid,
    /// the lines that a Linux guest prints where it is started with sev=debug
    Log,
}

impl Kind {
    pub fn name(self) -> &'static str {
        match self {
            Kind::Pages => "pages",
            Kind::OnePage => "one page",
            Kind::Image => "image",
            Kind::List => "list",
            Kind::Dump => "dump",
            Kind::Libcpuid => "libcpuid",
            Kind::Log => "log",
        }
    }
}

/// What a file gives.
pub enum Given {
    /// pages, which are built
    Pages(Vec<u8>),
    /// the table of an image, which is made
    Table(Box<Table>),
}

/// What was read of a file, and what a reader should know of it.
pub struct Input {
    pub kind: Kind,
    pub given: Given,
    pub notes: Vec<String>,
}

/// Why a file gives nothing.
pub enum NotRead {
    /// it is none of the kinds
    Foreign(String),
    /// it is of a kind, and a part of it cannot be read
    Damaged(String),
    /// it is a list that the library refuses
    Refused(Refusal, Box<Reason>),
}

impl NotRead {
    /// In words.
    pub fn told(&self) -> String {
        match self {
            NotRead::Foreign(why) | NotRead::Damaged(why) => why.clone(),
            NotRead::Refused(refusal, reason) => [vec![crate::building::told(*refusal)], reason.notes()].concat().join("; "),
        }
    }
}

/// What is said of a file that is none of the kinds.
const NONE: &str = "no CPUID pages, image, list for KVM, dump or sev=debug log";

/// What a file holds; nothing where it is none of the kinds. Text has no zero byte, and all others have one: a page's count is at most 64. A list has
/// its rows to the last byte; one that is as long as pages has more rows than a page counts.
pub fn kind(bytes: &[u8]) -> Option<Kind> {
    let counted_to_the_last = first_word(bytes).is_some_and(|rows| bytes.len() as u64 == 8 + 40 * u64::from(rows));
    if !bytes.contains(&0) {
        text::kind(bytes)
    } else if counted_to_the_last {
        Some(Kind::List)
    } else if image(bytes).is_some() {
        Some(Kind::Image)
    } else if one_page::is(bytes) {
        Some(Kind::OnePage)
    } else {
        pages(bytes).then_some(Kind::Pages)
    }
}

/// What a file's bytes give.
pub fn input(bytes: Vec<u8>) -> Result<Input, NotRead> {
    if bytes.is_empty() {
        return Err(NotRead::Foreign("it is empty".into()));
    }
    let Some(kind) = kind(&bytes) else { return Err(NotRead::Foreign(NONE.into())) };
    let mut notes = vec![];
    let given = match kind {
        Kind::Pages => Given::Pages(bytes),
        Kind::OnePage => {
            notes.push(one_page::NOTE.into());
            Given::Pages(one_page::laid_out(&bytes))
        }
        Kind::Image => Given::Table(Box::new(image(&bytes).expect("it is an image"))),
        Kind::List => {
            Given::Pages(list::taken(&bytes).map_err(|refusal| NotRead::Refused(refusal, Box::new(reasons::of_list(refusal, &bytes))))?.0.to_vec())
        }
        Kind::Dump | Kind::Libcpuid => {
            let taken = taken(kind, &bytes).map_err(NotRead::Damaged)?;
            notes.extend(taken.notes);
            Given::Pages(taken.pages)
        }
        Kind::Log => {
            let (page, note) = log::page(&bytes).map_err(NotRead::Damaged)?;
            notes.extend(note);
            Given::Pages(one_page::laid_out(&page))
        }
    };
    Ok(Input { kind, given, notes })
}

/// The same where an image counts only if pages give its table: the pool of it and itself is then the same.
pub fn input_with_pages(bytes: Vec<u8>) -> Result<Input, NotRead> {
    let input = input(bytes)?;
    match &input.given {
        Given::Table(table) if pool_tables(&[*table.clone(), *table.clone()]).as_ref() != Ok(&**table) => {
            Err(NotRead::Damaged("no pages give the table of this image".into()))
        }
        _ => Ok(input),
    }
}

/// The rows of a text.
struct Rows {
    rows: Vec<Entry>,
    cpus: usize,
}

/// The pages of a text: what a reader should know, and how many rows were taken and left out.
pub struct Taken {
    pub pages: Vec<u8>,
    pub notes: Vec<String>,
    pub kept: usize,
    pub left: usize,
}

/// The pages of the text of a dump, or of libcpuid's.
pub fn taken(kind: Kind, text: &[u8]) -> Result<Taken, String> {
    let Rows { rows, cpus } = if kind == Kind::Libcpuid { libcpuid::rows(text)? } else { dump::rows(text)? };
    let (kept, left): (Vec<Entry>, Vec<Entry>) = rows.into_iter().partition(|row| read_by_table(row.leaf, row.subleaf));
    let cpus = (cpus > 1).then(|| format!("it has {cpus} CPUs, the first is taken"));
    let states = (kind == Kind::Libcpuid).then(|| "libcpuid saves no subleaf of leaf Dh but the first".to_string());
    Ok(Taken { pages: two_pages(&kept)?, notes: cpus.into_iter().chain(states).collect(), kept: kept.len(), left: left.len() })
}

impl Taken {
    /// What is said of the rows that no table reads.
    pub fn left_out(&self) -> Option<String> {
        (self.left > 0).then(|| format!("{} that the table does not read left out, {} taken", counted(self.left as u32, "row"), self.kept))
    }
}

fn first_word(bytes: &[u8]) -> Option<u32> {
    word_at(bytes, 0)
}

fn word_at(bytes: &[u8], at: usize) -> Option<u32> {
    Some(u32::from_le_bytes(*bytes.get(at..)?.first_chunk()?))
}

/// Whether bytes are CPUID pages, by the first page that counts an entry: it begins with a leaf. Where its count is too large, or bytes are missing
/// or too many, more must speak for it: zeros behind the count, and leaves throughout. Else any file of another program would be damaged pages.
fn pages(bytes: &[u8]) -> bool {
    let whole = bytes.len() % PAGE_BYTES == 0;
    let Some(page) = bytes.chunks_exact(PAGE_BYTES).find(|page| first_word(page) != Some(0)) else { return whole };
    let leaf = |entry: usize| word_at(page, start(entry)).is_some_and(is_leaf);
    let count = first_word(page).unwrap_or(0) as usize;
    if whole && count <= PAGE_ENTRIES {
        return leaf(0);
    }
    let entries = count.min(PAGE_ENTRIES);
    let used = page[start(0)..start(entries)].iter().any(|byte| *byte != 0);
    page[4..16] == [0; 12] && used && (0..entries).all(leaf)
}

/// Whether a number can be a leaf: those of processors, hypervisors and their vendors count up from 0, 20000000, 40000000, 80000000 and C0000000.
fn is_leaf(number: u32) -> bool {
    number & 0x1FFF_0000 == 0
}
