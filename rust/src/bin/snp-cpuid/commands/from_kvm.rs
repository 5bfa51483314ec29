//! `from-kvm`: pages from a list of KVM.

use crate::arguments::Arguments;
use crate::building::Building;
use crate::command::Command;
use crate::failure::Failure;
use crate::input::{read, shown};
use crate::inputs::{self, Kind, list};
use crate::output;
use crate::reasons;
use crate::words::counted;
use snp_cpuid::KVM_PAGES_BYTES;
use std::ffi::OsStr;

pub const COMMAND: Command = Command {
    name: "from-kvm",
    operands: &["LIST"],
    options: &[&[output::file("PAGES")]],
    summary: "make pages from a list that KVM gives",
    about: "\
Makes two CPUID pages from a struct kvm_cpuid2, as KVM_GET_SUPPORTED_CPUID and KVM_GET_CPUID2 give
it and 'to-kvm' writes it: rows of leaf Dh on page 1 and all others on page 0, in list order,
function as EAX_IN and index as ECX_IN. All rows go in where there is room for them; a note on
standard error says how many of them the table reads: leaves 1, 5, 7.0, B.0, B.1, D.0 to D.3F,
80000001 to 80000008, 8000000A, 80000019, 8000001A, 8000001D.0 to .3, 8000001E and 8000001F. A page
holds 64 entries: where the list has more rows for one, those that no table reads are left out, and
the note says so.
",
    status: "\
Exit status: 0 written, 1 refused (10 its length, 12 a flag other than 0 or 1 or padding that is not
zero, 11 more than 64 rows for a page that a table reads), 2 bad usage or a file that cannot be read
or written.
",
    run,
};

fn run(arguments: &Arguments) -> Result<(), Failure> {
    let (file, bytes) = (&arguments.operands[0], read(&arguments.operands[0])?);
    let building = Building::of(arguments, COMMAND.name)?;
    // bytes that are none of the kinds are a list that was cut off; text without a zero byte is no list
    let is_text = !bytes.is_empty() && !bytes.contains(&0);
    if is_text || !matches!(inputs::kind(&bytes), None | Some(Kind::List)) {
        return output::write(arguments, &building.pages_of(file, bytes)?.pages);
    }
    let (pages, note) = pages_of(&bytes, file, building)?;
    output::write(arguments, &pages)?;
    output::note(&note);
    Ok(())
}

/// The pages of a list, and what is to be said of its rows. Where a page has no room for all rows, those go in that a table reads.
pub fn pages_of(bytes: &[u8], file: &OsStr, building: Building) -> Result<([u8; KVM_PAGES_BYTES], String), Failure> {
    let refused = |refusal| building.refused(shown(file), refusal, &reasons::of_list(refusal, bytes));
    let (pages, left_out) = list::taken(bytes).map_err(refused)?;
    // the list was read: its length is 8 + 40 × rows
    let rows = bytes[8..].chunks_exact(40);
    let (all, kept) = (rows.len() as u32, rows.filter(|row| list::is_read(row)).count());
    let others = if left_out { format!("; the {} others are left out, as a page holds 64", all - kept as u32) } else { String::new() };
    Ok((pages, format!("{}, of which the table reads {kept}{others}", counted(all, "row"))))
}
