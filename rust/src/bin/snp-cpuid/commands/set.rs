//! `set`: pages with registers changed by hand.

use crate::arguments::Arguments;
use crate::building::{self, Building, told};
use crate::command::Command;
use crate::edits::{Edit, clear_reserved};
use crate::failure::Failure;
use crate::features::REGISTERS;
use crate::input::{read, shown};
use crate::numbers::leaf_number;
use crate::output;
use crate::words::counted;
use snp_cpuid::Refusal;
use std::ffi::OsStr;

/// The change that is no register's: zeros in all reserved bytes.
const RESERVED: &str = "reserved=0";

pub const COMMAND: Command = Command {
    name: "set",
    operands: &["PAGES", "LEAF[.SUB].REG=VALUE.."],
    options: &[&[output::file("PAGES")], building::OPTIONS_BUT_LINE],
    summary: "write pages with registers changed",
    about: "\
Writes the pages with registers changed by hand, such as those that the notes after a refusal name:
'accepted with 80000008.EBX at 3112D21F' is 'set PAGES 80000008.EBX=3112D21F -o PAGES'. LEAF, SUB
and VALUE are hexadecimal, alone, after 0x or before h; REG is EAX, EBX, ECX or EDX. The register is
that of the entry that a table takes. Where the pages have no entry for the row, one is added, with
zeros in its other registers. 'reserved=0' puts zeros into the reserved bytes of all entries. The
changes are made in the order given. Notes say what was changed, and what comes of the pages then.
",
    status: "\
Exit status: 0 written, also where the pages are still refused, 1 refused by 1 or 2, which no
register mends, 2 bad usage, a page without room for a further entry, or a file that cannot be read
or written.
",
    run,
};

fn run(arguments: &Arguments) -> Result<(), Failure> {
    let (file, changes) = arguments.operands.split_first().expect("it is required");
    let building = Building::of(arguments, COMMAND.name)?;
    let edits = changes.iter().map(|change| if change == RESERVED { Ok(None) } else { parsed(change).map(Some) }).collect::<Result<Vec<_>, _>>()?;
    let source = building.pages_of(file, read(file)?)?;
    let (building, mut pages) = (building.under(source.options), source.pages);
    if let Err(refusal @ (Refusal::PagesLength | Refusal::PageCount)) = building.build(&pages) {
        return Err(building.pages_refused(file, refusal, &pages));
    }
    let mut notes = vec![];
    for edit in edits {
        let done = match edit {
            Some(edit) => edit.put(&mut pages).map_err(|why| Failure::Bad(format!("{}: {why}", shown(file))))?,
            None => clear_reserved(&mut pages),
        };
        notes.extend(done);
    }
    if notes.is_empty() {
        notes.push("nothing is changed".into());
    }
    notes.push(match building.build(&pages) {
        Ok(table) => format!("made by hand, and accepted: {}", counted(table.rows().count() as u32, "row")),
        Err(refusal) => format!("made by hand; {}", told(refusal)),
    });
    output::write(arguments, &pages)?;
    notes.iter().for_each(|note| output::note(note));
    Ok(())
}

/// LEAF.REG=VALUE or LEAF.SUB.REG=VALUE.
fn parsed(operand: &OsStr) -> Result<Edit, Failure> {
    let read = || {
        let (place, value) = operand.to_str()?.split_once('=')?;
        let (place, register) = place.rsplit_once('.')?;
        let register = REGISTERS.iter().position(|name| name.eq_ignore_ascii_case(register))?;
        let (leaf, subleaf) = place.split_once('.').unwrap_or((place, "0"));
        Some(Edit { leaf: leaf_number(leaf)?, subleaf: leaf_number(subleaf)?, register, value: leaf_number(value)? })
    };
    read().ok_or_else(|| {
        let given = shown(operand);
        Failure::usage(COMMAND.name, &format!("'{given}' is no LEAF[.SUB].REG=VALUE, as in 80000008.EBX=3112D21F or D.0.EAX=7, and not {RESERVED}"))
    })
}
