//! `guest`: the table that the guest of one processor sees, in words.

use super::table;
use crate::arguments::Arguments;
use crate::building::{self, Building};
use crate::command::Command;
use crate::failure::Failure;
use crate::input::shown;
use crate::json;
use crate::print::{self, Form};
use crate::{output, processor};

pub const COMMAND: Command = Command {
    name: "guest",
    operands: &["PAGES"],
    options: &[processor::ALWAYS, &[print::ORIGINS, json::OPTION], building::OPTIONS],
    summary: "print the table that one processor's guest sees, in the same words",
    about: "\
Prints the table of the pages as the guest of one processor sees it, in the form of 'table'. It
differs from what 'table' prints in the processor's number (1.EBX bits 24-31, B.0.EDX, B.1.EDX), in
1.ECX bit 27 (OSXSAVE), in D.0.EBX, the size of the save area of XCR0, and in D.1.EBX, the size of
the compacted area of XCR0 and XSS. N and X are hexadecimal, with or without 0x. Rows have the
origins that 'table' gives them, and the fingerprint is the table's, the same for every processor.
",
    status: "\
Exit status: 0 accepted, 1 refused (13 and 14 are the guest's), 2 bad usage or a file that cannot be
read.
",
    run,
};

fn run(arguments: &Arguments) -> Result<(), Failure> {
    let seen = processor::of(arguments, COMMAND.name)?;
    let building = Building::of(arguments, COMMAND.name)?;
    let file = &arguments.operands[0];
    let whole = building.table(file)?;
    let (table, fingerprint) = (building.view(file, &whole, seen)?, whole.fingerprint());
    if building.json() {
        let answer = table::accepted(&shown(file), building.edition(), &table, fingerprint);
        return output::print(answer.with([("processor", seen.map(processor::json).into())]).to_string());
    }
    output::print(table::text(&table, Form::of(arguments), fingerprint))
}
