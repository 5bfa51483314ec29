//! Folders as they are: their files, and what stands there that cannot be read or must not be waited for.

use super::Unread;
use super::progress::Progress;
use crate::failure::Failure;
use crate::input::{reason, shown};
use std::cmp::Reverse;
use std::collections::{BinaryHeap, HashSet};
use std::ffi::{OsStr, OsString};
use std::fs::{self, FileType, Metadata};
use std::io;
use std::os::unix::fs::{FileTypeExt, MetadataExt};
use std::path::Path;

/// A file that is found.
#[derive(PartialEq, Eq, PartialOrd, Ord)]
pub struct File {
    pub name: OsString,
    /// whether it stands in a folder that was given
    pub in_folder: bool,
}

/// What is found below some names.
pub struct Found<'a> {
    /// the files, in the order of their names
    pub files: Vec<File>,
    /// what is passed over
    pub not_read: Vec<Unread>,
    /// links to folders, which are followed at last: a folder that stands in two places has the name of the one where it is
    links: BinaryHeap<Reverse<OsString>>,
    /// the folders that were read
    seen: HashSet<(u64, u64)>,
    progress: &'a Progress,
}

impl Found<'_> {
    /// The files that are given, and those of folders and of the folders in these; hidden ones, whose names begin with a dot, are left out.
    pub fn below<'a>(operands: &[OsString], progress: &'a Progress) -> Result<Found<'a>, Failure> {
        let mut found = Found { files: vec![], not_read: vec![], links: BinaryHeap::new(), seen: HashSet::new(), progress };
        for name in operands {
            if name == "-" || !Path::new(name).is_dir() {
                found.files.push(File { name: name.clone(), in_folder: false });
            } else if let Err(error) = found.folder(name) {
                return Err(Failure::Bad(format!("{}: {}", shown(name), reason(&error))));
            }
        }
        while let Some(Reverse(link)) = found.links.pop() {
            found.try_folder(&link);
        }
        found.files.sort();
        Ok(found)
    }

    /// The files of a folder, each folder once.
    fn folder(&mut self, folder: &OsStr) -> io::Result<()> {
        if !self.seen.insert(place(&fs::metadata(folder)?)) {
            self.pass_over(folder, "a folder that was read already");
            return Ok(());
        }
        let named = |entry: io::Result<fs::DirEntry>| entry.map(|entry| (entry.file_name(), entry.file_type()));
        let mut there = fs::read_dir(folder)?.map(named).collect::<io::Result<Vec<_>>>()?;
        there.retain(|(name, _)| !name.as_encoded_bytes().starts_with(b"."));
        there.sort_by(|(a, _), (b, _)| a.cmp(b));
        for (name, kind) in there {
            self.take(Path::new(folder).join(name).into_os_string(), kind);
        }
        Ok(())
    }

    fn try_folder(&mut self, name: &OsStr) {
        if let Err(error) = self.folder(name) {
            self.pass_over(name, &reason(&error));
        }
    }

    /// A name of a folder. A pipe would be waited for, and a device may have no end.
    fn take(&mut self, name: OsString, kind: io::Result<FileType>) {
        match kind {
            Err(error) => self.pass_over(&name, &reason(&error)),
            Ok(kind) if kind.is_symlink() => match fs::metadata(&name) {
                Err(_) => self.pass_over(&name, "a link to nothing that can be read"),
                Ok(there) if there.is_dir() => self.links.push(Reverse(name)),
                Ok(there) => self.take(name, Ok(there.file_type())),
            },
            Ok(kind) if kind.is_dir() => self.try_folder(&name),
            Ok(kind) if kind.is_file() => {
                self.files.push(File { name, in_folder: true });
                self.progress.found(self.files.len());
            }
            Ok(kind) => self.pass_over(&name, special(kind)),
        }
    }

    fn pass_over(&mut self, name: &OsStr, why: &str) {
        self.not_read.push(Unread { file: shown(name), why: why.into() });
    }
}

/// Which folder it is, under any name.
fn place(folder: &Metadata) -> (u64, u64) {
    (folder.dev(), folder.ino())
}

fn special(kind: FileType) -> &'static str {
    match kind {
        kind if kind.is_fifo() => "a pipe",
        kind if kind.is_socket() => "a socket",
        _ => "a device",
    }
}
