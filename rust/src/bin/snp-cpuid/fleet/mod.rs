//! A fleet of servers: which of them give a guest the same table, where a guest may go, what they share, and why some give none.

pub mod bits;
pub mod data;
mod differing;
mod entries;
mod folders;
mod groups;
mod moves;
mod names;
mod once;
pub mod page;
mod pools;
mod progress;
mod reading;
mod refused;
pub mod since;
pub mod text;

use crate::building::Building;
use crate::failure::Failure;
use crate::input::shown;
use crate::inputs::Kind;
use crate::json::Json;
use groups::Group;
use moves::Moves;
use pools::Pool;
use reading::{Judge, Kept};
use refused::Refused;
use snp_cpuid::{Fingerprint, Refusal, Table};
use std::ffi::OsString;

/// What came of a server.
#[derive(Clone, Copy)]
pub enum Answer {
    /// accepted: the place of its class, and the number of its entries; an image has none
    Class { class: u32, entries: Option<u32> },
    /// it has no table: the place of the reason
    Without(u32),
}

/// Why servers have no table.
#[derive(PartialEq, Eq, Hash)]
pub enum Why {
    /// the library refuses their pages
    Refused {
        refusal: Refusal,
        /// whether their processor has SEV-SNP
        has_snp: bool,
        /// the refusal with its reason as an object; null where nobody asks for JSON
        reason: Json,
    },
    /// their file is damaged
    Unread(String),
}

/// One server of the fleet: of its pages or table nothing is kept that another has too.
pub struct Server {
    /// its file, as it was given
    file: Box<str>,
    /// where its short name stands there
    name: [u32; 2],
    pub kind: Kind,
    pub answer: Answer,
}

// beside the name of its file: a million of them are 48 MB
const _: () = assert!(size_of::<Server>() <= 48);

impl Server {
    fn new(file: String, kind: Kind, answer: Answer) -> Server {
        Server { file: file.into(), name: [0; 2], kind, answer }
    }

    pub fn file(&self) -> &str {
        &self.file
    }

    /// The short name by which the report calls it.
    pub fn name(&self) -> &str {
        let [start, end] = self.name.map(|at| at as usize);
        &self.file[start..end]
    }

    /// Calls it by a part of its file's name.
    fn call(&mut self, part: fn(&str) -> &str) {
        let name = part(&self.file);
        let start = name.as_ptr() as usize - self.file.as_ptr() as usize;
        self.name = [start, start + name.len()].map(|at| at as u32);
    }

    /// The place of its class; none where it has no table.
    pub fn class(&self) -> Option<usize> {
        if let Answer::Class { class, .. } = self.answer { Some(class as usize) } else { None }
    }
}

/// A file that is no server's, and why it was not read.
#[derive(PartialEq, Eq, PartialOrd, Ord)]
pub struct Unread {
    pub file: String,
    pub why: String,
}

/// Tables, each with the places of the servers that give it.
type Tables = Vec<(Vec<usize>, Table)>;

/// Servers that give one table: the same rows and the same combined mask.
pub struct Class {
    /// the letter of its group, and its number there
    pub name: String,
    /// the place of its group
    pub group: usize,
    /// the places of its servers
    pub servers: Vec<usize>,
    pub table: Table,
    /// by which it is known whatever servers come and go
    pub fingerprint: Fingerprint,
}

/// All that a report says. Servers stand in the order of their files' names: the same files in another order give the same report.
pub struct Fleet {
    pub building: Building,
    /// whether tables are taken as processor 0 sees them, with all its states on
    pub view: bool,
    pub servers: Vec<Server>,
    pub groups: Vec<Group>,
    pub classes: Vec<Class>,
    pub moves: Moves,
    pub pools: Vec<Pool>,
    pub refused: Vec<Refused>,
    /// why servers have no table, by their answers
    whys: Vec<Why>,
    /// what stands in the folders and is no server's
    pub not_read: Vec<Unread>,
    /// the files and folders that were given
    pub from: Vec<String>,
}

impl Fleet {
    /// Reads and builds each server once, puts equal tables together, and compares these.
    pub fn of(operands: &[OsString], building: Building, view: bool) -> Result<Fleet, Failure> {
        let Kept { mut servers, tables, entries, whys, not_read, .. } = Kept::of(operands, &Judge { building, view })?;
        let mut tables: Tables = tables.all().into_iter().map(|table| (vec![], table)).collect();
        for (place, class) in servers.iter().enumerate().filter_map(|(place, server)| Some((place, server.class()?))) {
            tables[class].0.push(place);
        }
        let (classes, groups) = groups::named(tables);
        for (place, class) in classes.iter().enumerate() {
            for server in &class.servers {
                if let Answer::Class { class, .. } = &mut servers[*server].answer {
                    *class = place as u32;
                }
            }
        }
        let pools = pools::of(&groups, &classes);
        let moves = Moves::of(&groups, &classes, &servers, &entries.all(), &building);
        let whys = whys.all();
        let refused = refused::together(&servers, &whys);
        let from = operands.iter().map(|operand| shown(operand)).collect();
        Ok(Fleet { building, view, groups, moves, pools, refused, whys, not_read, from, classes, servers })
    }

    /// How many servers are accepted.
    pub fn accepted(&self) -> usize {
        self.groups.iter().map(|group| group.servers).sum()
    }

    /// The short names of servers.
    fn names(&self, servers: &[usize]) -> Vec<&str> {
        servers.iter().map(|server| self.servers[*server].name()).collect()
    }
}
