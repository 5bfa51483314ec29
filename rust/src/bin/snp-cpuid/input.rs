//! Reading the files that are given as arguments.

use crate::failure::Failure;
use std::ffi::OsStr;
use std::fs::File;
use std::io::{self, ErrorKind, Read};

/// The most bytes that are read, 16,384 pages: a device without end is refused instead of read.
pub const MOST_BYTES: u64 = 64 << 20;

/// Room for a usual file, which is then read at once.
const ROOM: usize = 16 << 10;

/// A file's name as messages have it: on one line, whatever it is.
pub fn shown(name: &OsStr) -> String {
    if name == "-" {
        return "standard input".into();
    }
    let name = name.to_string_lossy();
    if !name.contains(char::is_control) {
        return name.into_owned();
    }
    name.chars().map(|c| if c.is_control() { c.escape_default().to_string() } else { c.to_string() }).collect()
}

/// What went wrong, without the number that the system gives it.
pub fn reason(error: &io::Error) -> String {
    match error.kind() {
        ErrorKind::NotFound => "no such file or directory".into(),
        ErrorKind::PermissionDenied => "permission denied".into(),
        ErrorKind::IsADirectory => "is a directory".into(),
        _ => {
            let text = error.to_string();
            text.split(" (os error").next().unwrap_or(&text).to_string()
        }
    }
}

/// The bytes of a file, or of standard input for `-`.
pub fn read(name: &OsStr) -> Result<Vec<u8>, Failure> {
    let mut bytes = Vec::with_capacity(ROOM);
    let result = open(name).and_then(|file| file.take(MOST_BYTES + 1).read_to_end(&mut bytes));
    match result {
        Err(error) => Err(not_read(name, &error)),
        Ok(_) if bytes.len() as u64 > MOST_BYTES => Err(Failure::Bad(format!("{}: longer than 64 MiB", shown(name)))),
        Ok(_) => Ok(bytes),
    }
}

/// A file, or standard input for `-`.
pub fn open(name: &OsStr) -> io::Result<Box<dyn Read>> {
    Ok(if name == "-" { Box::new(io::stdin().lock()) } else { Box::new(File::open(name)?) })
}

/// A file that cannot be read.
pub fn not_read(name: &OsStr, error: &io::Error) -> Failure {
    Failure::Bad(format!("{}: {}", shown(name), reason(error)))
}
