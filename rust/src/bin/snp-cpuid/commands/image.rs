//! `image`: the table as bytes.

use crate::arguments::Arguments;
use crate::building::{self, Building};
use crate::command::Command;
use crate::failure::Failure;
use crate::output;

pub const COMMAND: Command = Command {
    name: "image",
    operands: &["PAGES"],
    options: &[&[output::file("FILE")], building::OPTIONS],
    summary: "write the table as bytes",
    about: "\
Writes the table of the pages as bytes: for each row byte 1, leaf, EAX, EBX, ECX, EDX, or byte 2,
leaf, subleaf and the four registers, each number 4 bytes little-endian. A note on standard error
has the table's fingerprint, the SHA-256 of these bytes.
",
    status: "\
Exit status: 0 accepted and written, 1 refused, 2 bad usage or a file that cannot be read or
written.
",
    run,
};

fn run(arguments: &Arguments) -> Result<(), Failure> {
    let table = Building::of(arguments, COMMAND.name)?.table(&arguments.operands[0])?;
    output::write(arguments, &table.image())?;
    output::note(&format!("fingerprint {}", table.fingerprint()));
    Ok(())
}
