//! The files of a fleet, read and judged one by one on several threads. What is kept of a server does not grow with its file.

use super::entries::Entries;
use super::folders::{File, Found};
use super::names::name_shortly;
use super::once::Once;
use super::progress::Progress;
use super::{Answer, Server, Unread, Why};
use crate::building::{Building, refusal_json};
use crate::failure::Failure;
use crate::input::{read, shown};
use crate::inputs::{self, Given, Input, Kind, NotRead};
use crate::json::Json;
use crate::processor::all_states;
use crate::standing::Standing;
use snp_cpuid::{Refusal, Table};
use std::ffi::{OsStr, OsString};
use std::sync::Mutex;
use std::thread;

/// So many files a thread takes at once.
const BATCH: usize = 16;

const NO_PANIC: &str = "no thread has panicked";

/// More threads would wait for the disk, or for each other.
const MOST_THREADS: usize = 8;

/// What is kept of the files: the servers, what they have alike, and what is no server's.
#[derive(Default)]
pub struct Kept {
    /// in the order of their names
    pub servers: Vec<Server>,
    pub tables: Once<Table>,
    pub entries: Once<Entries>,
    pub whys: Once<Why>,
    pub not_read: Vec<Unread>,
    /// a file that was named and is no server's, or cannot be read, by its place
    failed: Option<(usize, Failure)>,
}

/// How each file is judged.
pub struct Judge {
    pub building: Building,
    /// whether tables are taken as processor 0 sees them
    pub view: bool,
}

/// What came of a server's file.
enum Judged {
    Table(Box<Table>, Option<Entries>),
    Without(Why),
}

impl Kept {
    /// The files that are given, and those below the folders that are given. What is given must be a server's; of what stands in a folder, the rest
    /// is named.
    pub fn of(operands: &[OsString], judge: &Judge) -> Result<Kept, Failure> {
        let progress = Progress::new();
        let Found { files, not_read, .. } = Found::below(operands, &progress)?;
        let mut kept = read_all(files, judge, &progress);
        drop(progress);
        if let Some((_, failure)) = kept.failed {
            return Err(failure);
        }
        kept.not_read.extend(not_read);
        if kept.servers.is_empty() {
            let others = if kept.not_read.is_empty() { String::new() } else { format!(", and {} that are none", kept.not_read.len()) };
            return Err(Failure::Bad(format!("{}: no server's file in it{others}", shown(&operands[0]))));
        }
        kept.not_read.sort();
        name_shortly(&mut kept.servers);
        Ok(kept)
    }

    /// Keeps what came of the file at a place.
    fn take(&mut self, place: usize, file: File, judged: Result<(Kind, Judged), Failure>) {
        let name = shown(&file.name);
        match judged {
            Ok((kind, judged)) => {
                let answer = match judged {
                    Judged::Table(table, entries) => {
                        Answer::Class { class: self.tables.number(*table), entries: entries.map(|entries| self.entries.number(entries)) }
                    }
                    Judged::Without(why) => Answer::Without(self.whys.number(why)),
                };
                self.servers.push(Server::new(name, kind, answer));
            }
            Err(Failure::Bad(why)) if file.in_folder => {
                let why = why.strip_prefix(&format!("{name}: ")).map(String::from).unwrap_or(why);
                self.not_read.push(Unread { file: name, why });
            }
            Err(failure) => {
                if self.failed.as_ref().is_none_or(|(first, _)| place < *first) {
                    self.failed = Some((place, failure));
                }
            }
        }
    }
}

/// Reads and judges the files. Where one that was named fails, no further ones are taken: those before it have been.
fn read_all(files: Vec<File>, judge: &Judge, progress: &Progress) -> Kept {
    let all = files.len();
    let kept = Mutex::new(Kept { servers: Vec::with_capacity(all), ..Kept::default() });
    let left = Mutex::new(files.into_iter().enumerate());
    let work = || {
        loop {
            let batch: Vec<(usize, File)> = left.lock().expect(NO_PANIC).by_ref().take(BATCH).collect();
            let Some((start, _)) = batch.first() else { return };
            progress.read(*start, all);
            let judged: Vec<_> = batch.iter().map(|(_, file)| judge.file(&file.name)).collect();
            let mut kept = kept.lock().expect(NO_PANIC);
            batch.into_iter().zip(judged).for_each(|((place, file), judged)| kept.take(place, file, judged));
            if kept.failed.is_some() {
                return;
            }
        }
    };
    let threads = thread::available_parallelism().map_or(1, usize::from).min(MOST_THREADS).min(all.div_ceil(BATCH));
    thread::scope(|scope| {
        // where no further thread can be had, this one reads all
        (1..threads).for_each(|_| drop(thread::Builder::new().spawn_scoped(scope, work)));
        work();
    });
    kept.into_inner().expect(NO_PANIC)
}

impl Judge {
    /// What came of a file. A file of a kind that is damaged is a server's too, of which nothing is known.
    fn file(&self, file: &OsStr) -> Result<(Kind, Judged), Failure> {
        let bytes = read(file)?;
        let kind = inputs::kind(&bytes);
        match (inputs::input_with_pages(bytes), kind) {
            (Ok(Input { kind, given: Given::Pages(pages), .. }), _) => Ok((kind, self.pages(&pages))),
            (Ok(Input { kind, given: Given::Table(table), .. }), _) => Ok((kind, Judged::Table(Box::new(self.seen(*table)), None))),
            (Err(NotRead::Foreign(why)), _) => Err(Failure::Bad(format!("{}: {why}", shown(file)))),
            (Err(damaged), kind) => Ok((kind.expect("what is damaged is of a kind"), Judged::Without(Why::Unread(damaged.told())))),
        }
    }

    fn pages(&self, pages: &[u8]) -> Judged {
        match self.building.build(pages) {
            Ok(table) => {
                let entries = Entries::of(pages, &table);
                Judged::Table(Box::new(self.seen(table)), Some(entries))
            }
            Err(refusal) => Judged::Without(self.refused(refusal, pages)),
        }
    }

    fn refused(&self, refusal: Refusal, pages: &[u8]) -> Why {
        // bit 4 of 8000001Fh.EAX
        let has_snp = Standing::of(pages).masked(0x8000_001F, None)[0] >> 4 & 1 == 1;
        // the reason stands in JSON alone
        let reason = if self.building.json() { refusal_json(refusal, &self.building.reason(refusal, pages)) } else { Json::Null };
        Why::Refused { refusal, has_snp, reason }
    }

    /// The table, or what processor 0 sees of it.
    fn seen(&self, table: Table) -> Table {
        let seen = if self.view { table.guest(all_states(&table)).ok() } else { None };
        seen.unwrap_or(table)
    }
}
