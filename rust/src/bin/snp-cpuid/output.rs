//! Writing: text to standard output, files whole or not at all, and lines to standard error.

use crate::arguments::Arguments;
use crate::failure::Failure;
use crate::input::{reason, shown};
use crate::json::{self, Json};
use crate::option::{Opt, Value};
use crate::wrap::told;
use std::ffi::OsStr;
use std::fs::{self, File, OpenOptions};
use std::io::{self, BufWriter, ErrorKind, IsTerminal, Write};
use std::os::unix::fs::MetadataExt;
use std::path::PathBuf;
use std::process;

const NAMES: &[&str] = &["-o", "--output"];

/// The option of a command that writes a file, which the help calls so.
pub const fn file(name: &'static str) -> Opt {
    let help = "the file to write; it is replaced as a whole, and only where all went well";
    Opt { names: NAMES, value: Value::Output(name), required: true, help }
}

/// The option of a command that writes a file, or to standard output where none is given.
pub const fn file_or_standard_output(name: &'static str) -> Opt {
    let help = "write to a file; it is replaced as a whole, and only where all went well";
    Opt { names: NAMES, value: Value::Output(name), required: false, help }
}

/// The option of a command that prints text, and writes bytes instead where it is given.
pub const fn bytes_to_file(name: &'static str) -> Opt {
    let help = "write bytes to a file; it is replaced as a whole, and only where all went well";
    Opt { names: NAMES, value: Value::Output(name), required: false, help }
}

/// Bad usage where both the bytes of `-o` and JSON would go to standard output.
pub fn json_apart(arguments: &Arguments, command: &str) -> Result<(), Failure> {
    match arguments.value(NAMES[0]) {
        Some(name) if name == "-" && json::asked(arguments) => Err(Failure::usage(command, "-o - and --json both go to standard output")),
        _ => Ok(()),
    }
}

/// Whether `-o` is given.
pub fn is_given(arguments: &Arguments) -> bool {
    arguments.value(NAMES[0]).is_some()
}

/// The file that `-o` names, for an object.
pub fn file_json(arguments: &Arguments) -> Json {
    arguments.value(NAMES[0]).map(shown).into()
}

/// Bytes to the file that `-o` names; where it is not given, text to standard output.
pub fn write_or_print(arguments: &Arguments, bytes: &[u8], text: &str) -> Result<(), Failure> {
    match arguments.value(NAMES[0]) {
        Some(name) => to_file(name, bytes),
        None => print(text),
    }
}

/// Bytes to the file that `-o` names.
pub fn write(arguments: &Arguments, bytes: &[u8]) -> Result<(), Failure> {
    to_file(arguments.value(NAMES[0]).expect("it is required"), bytes)
}

/// Text to the file that `-o` names, and to standard output where it is not given.
pub fn write_text(arguments: &Arguments, text: &str) -> Result<(), Failure> {
    match arguments.value(NAMES[0]) {
        Some(name) if name != "-" => to_file(name, text.as_bytes()),
        _ => print(text),
    }
}

/// A line to standard error. Where that is closed there is nobody to tell.
pub fn say(line: &str) {
    let _ = io::stderr().write_all(told("snp-cpuid: ", line).as_bytes());
}

/// A note to standard error.
pub fn note(words: &str) {
    say(&format!("note: {words}"));
}

/// Text or bytes to standard output.
pub fn print(data: impl AsRef<[u8]>) -> Result<(), Failure> {
    let mut out = io::stdout().lock();
    printed(out.write_all(data.as_ref()).and_then(|()| out.flush()))
}

/// Text to standard output part by part, so that not all of it is in memory.
pub fn print_parts(mut parts: impl Iterator<Item = String>) -> Result<(), Failure> {
    let mut out = BufWriter::new(io::stdout().lock());
    let written = parts.try_for_each(|part| out.write_all(part.as_bytes())).and_then(|()| out.flush());
    // what is left in the buffer is not tried again
    let _ = out.into_parts();
    printed(written)
}

/// A reader that has gone, as in `| head`, has what it wanted.
fn printed(written: io::Result<()>) -> Result<(), Failure> {
    match written {
        Err(error) if error.kind() != ErrorKind::BrokenPipe => Err(Failure::Bad(format!("standard output: {}", reason(&error)))),
        _ => Ok(()),
    }
}

/// Refuses an output that is one of these files: what it holds would be gone.
pub fn not_one_of<'a>(output: &OsStr, mut inputs: impl Iterator<Item = &'a OsStr>) -> Result<(), Failure> {
    let Some(there) = place(output) else { return Ok(()) };
    match inputs.find(|input| place(input) == Some(there)) {
        Some(input) => Err(Failure::Bad(format!("{}: not written: it is the input {}", shown(output), shown(input)))),
        None => Ok(()),
    }
}

/// Which file it is, under any name and through any links; none where there is no file.
fn place(name: &OsStr) -> Option<(u64, u64)> {
    fs::metadata(name).ok().filter(|there| there.is_file()).map(|there| (there.dev(), there.ino()))
}

/// Bytes to a file, or to standard output for `-`, unless that is a terminal.
pub fn to_file(name: &OsStr, bytes: &[u8]) -> Result<(), Failure> {
    Pending::new(name, bytes)?.put()
}

/// Bytes to a file and text to standard output part by part. Where the text cannot be printed the file stays as it was.
pub fn to_file_and_print(name: &OsStr, bytes: &[u8], parts: impl Iterator<Item = String>) -> Result<(), Failure> {
    let pending = Pending::new(name, bytes)?;
    print_parts(parts)?;
    pending.put()
}

/// The same for the file that `-o` names.
pub fn write_and_print(arguments: &Arguments, bytes: &[u8], text: &str) -> Result<(), Failure> {
    to_file_and_print(arguments.value(NAMES[0]).expect("it is given"), bytes, [text.to_string()].into_iter())
}

/// Bytes that are ready to be put where they belong.
struct Pending<'a> {
    name: &'a OsStr,
    ready: Ready<'a>,
}

enum Ready<'a> {
    /// for standard output
    Output(&'a [u8]),
    /// for a pipe or a device, which has no bytes to keep and must not be replaced by a file
    Open(File, &'a [u8]),
    /// a whole file beside the one that it is to replace: the file is the old one or the new one, never a part
    Beside { temporary: PathBuf, path: PathBuf },
}

impl<'a> Pending<'a> {
    /// Writes as much as can be written before the file changes.
    fn new(name: &'a OsStr, bytes: &'a [u8]) -> Result<Pending<'a>, Failure> {
        if name == "-" {
            // a terminal would take bytes for commands of its own
            let terminal = io::stdout().is_terminal();
            let why = "standard output is a terminal, and these are bytes, not text: give -o a file, or pipe them into 'od -A d -t x1'";
            return if terminal { Err(Failure::Bad(why.into())) } else { Ok(Pending { name, ready: Ready::Output(bytes) }) };
        }
        Ok(Pending { name, ready: ready(name, bytes).map_err(|error| not_written(name, &error))? })
    }

    /// Puts them there.
    fn put(mut self) -> Result<(), Failure> {
        let done = match &mut self.ready {
            Ready::Output(bytes) => return print(bytes),
            Ready::Open(file, bytes) => file.write_all(bytes),
            Ready::Beside { temporary, path } => fs::rename(temporary, path),
        };
        done.map_err(|error| not_written(self.name, &error))
    }
}

/// Leaves nothing beside a file that was not replaced.
impl Drop for Pending<'_> {
    fn drop(&mut self) {
        if let Ready::Beside { temporary, .. } = &self.ready {
            let _ = fs::remove_file(temporary);
        }
    }
}

fn not_written(name: &OsStr, error: &io::Error) -> Failure {
    Failure::Bad(format!("{}: cannot be written: {}", shown(name), reason(error)))
}

/// Bytes for a name. A file that may not be written to is not replaced either, and a link stays a link; one to nothing is not written.
fn ready<'a>(name: &OsStr, bytes: &'a [u8]) -> io::Result<Ready<'a>> {
    match fs::metadata(name) {
        Ok(there) if !there.is_file() => Ok(Ready::Open(OpenOptions::new().write(true).open(name)?, bytes)),
        Ok(there) => {
            OpenOptions::new().write(true).open(name)?;
            beside(fs::canonicalize(name)?, bytes, Some(there.permissions()))
        }
        Err(error) if fs::symlink_metadata(name).is_ok() => Err(error),
        Err(_) => beside(PathBuf::from(name), bytes, None),
    }
}

/// The bytes in a file of another name beside the one that they are for.
fn beside<'a>(path: PathBuf, bytes: &[u8], permissions: Option<fs::Permissions>) -> io::Result<Ready<'a>> {
    let mut hidden = OsStr::new(".").to_os_string();
    hidden.push(path.file_name().ok_or(ErrorKind::IsADirectory)?);
    hidden.push(format!(".{}", process::id()));
    let temporary = path.with_file_name(hidden);
    let mut file = File::create_new(&temporary)?;
    let written = file.write_all(bytes).and_then(|()| permissions.map_or(Ok(()), |p| file.set_permissions(p))).and_then(|()| file.sync_all());
    if let Err(error) = written {
        let _ = fs::remove_file(&temporary);
        return Err(error);
    }
    Ok(Ready::Beside { temporary, path })
}
