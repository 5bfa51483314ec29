//! `to-dump`: the table as the text that Debian's `cpuid -r` writes and `cpuid -f` reads.

use crate::arguments::Arguments;
use crate::building::{self, Building, told};
use crate::command::Command;
use crate::failure::Failure;
use crate::standing::Standing;
use crate::{output, words};
use snp_cpuid::Refusal;

pub const COMMAND: Command = Command {
    name: "to-dump",
    operands: &["PAGES"],
    options: &[&[output::file_or_standard_output("FILE")], building::OPTIONS_BUT_LINE],
    summary: "print the table, or refused entries, as text that 'cpuid -f' reads",
    about: "\
Prints the table of the pages as text that Debian's 'cpuid -f' reads, one CPU, the table's rows in
order. A row without subleaf has subleaf 0x00. Pages that are refused have no table: their entries
are printed as they stand, those that count, in order, and a note has the refusal.
",
    status: "\
Exit status: 0 written, also the entries of refused pages; 1 refused by 15, 1 or 2, so that there is
no entry to be read, 2 bad usage or a file that cannot be read or written.
",
    run,
};

fn run(arguments: &Arguments) -> Result<(), Failure> {
    let (building, file) = (Building::of(arguments, COMMAND.name)?, &arguments.operands[0]);
    let source = building.heeding(file)?;
    match source.table() {
        Ok(table) => {
            let rows = table.rows().map(|row| line(row.leaf, row.subleaf.unwrap_or(0), words::registers(&row)));
            output::write_text(arguments, &text(rows))
        }
        Err(refusal @ (Refusal::UnknownEdition | Refusal::PagesLength | Refusal::PageCount)) => {
            Err(building.pages_refused(file, refusal, &source.pages))
        }
        Err(refusal) => {
            let standing = Standing::of(&source.pages);
            let entries = standing.places.iter().filter(|place| place.counts());
            output::write_text(arguments, &text(entries.map(|place| line(place.leaf, place.subleaf, place.registers))))?;
            output::note(&format!("{}: {}; these are its entries as they stand, and no table", source.file, told(refusal)));
            Ok(())
        }
    }
}

fn text(lines: impl Iterator<Item = String>) -> String {
    format!("CPU 0:\n{}", lines.collect::<String>())
}

fn line(leaf: u32, subleaf: u32, [eax, ebx, ecx, edx]: [u32; 4]) -> String {
    format!("   0x{leaf:08x} 0x{subleaf:02x}: eax=0x{eax:08x} ebx=0x{ebx:08x} ecx=0x{ecx:08x} edx=0x{edx:08x}\n")
}
