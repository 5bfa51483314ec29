//! `table`: the table in words.

use crate::arguments::Arguments;
use crate::building::{self, Building, edition_json};
use crate::command::Command;
use crate::components;
use crate::failure::Failure;
use crate::fields::cut;
use crate::input::shown;
use crate::json::{self, Json, array, hex, object};
use crate::output;
use crate::print::{self, Form, row_json};
use crate::words::counted;
use crate::wrap::wrapped;
use snp_cpuid::{Fingerprint, Table};

pub const COMMAND: Command = Command {
    name: "table",
    operands: &["PAGES"],
    options: &[&[print::ORIGINS, json::OPTION], building::OPTIONS],
    summary: "print the table, its features and its topology in words",
    about: "\
Prints the table of the pages: for each row its leaf, subleaf and registers in hexadecimal, under it
the feature bits that are set, by the AMD manual's names, and fields in words; then the table's
fingerprint, the combined mask of extended states, the size of their save area, and the topology.
The fingerprint is the SHA-256 of the bytes that 'image' writes: servers that give one table have
one, and others have another. With --origins a row's line
ends in its source entry, by page and entry, both counted from 0, or in 'made here', for 0, 80000000
and the two rows of leaf B, or in 'unknown' where PAGES is an image.
",
    status: "\
Exit status: 0 accepted, 1 refused (standard error has the refusal's number, the numbers that it
rests on, and what change would be accepted), 2 bad usage or a file that cannot be read.
",
    run,
};

fn run(arguments: &Arguments) -> Result<(), Failure> {
    let building = Building::of(arguments, COMMAND.name)?;
    let file = &arguments.operands[0];
    let table = building.table(file)?;
    if building.json() {
        return output::print(accepted(&shown(file), building.edition(), &table, table.fingerprint()).to_string());
    }
    output::print(text(&table, Form::of(arguments), table.fingerprint()))
}

/// The object of an accepted table, or of a processor's view of it, with the table's fingerprint.
pub fn accepted(file: &str, edition: u32, table: &Table, fingerprint: Fingerprint) -> Json {
    object([("answer", "accepted".into()), ("file", file.into()), ("edition", edition_json(table, edition))]).with(members(table, fingerprint))
}

/// What an object says of a table.
pub fn members(table: &Table, fingerprint: Fingerprint) -> [(&'static str, Json); 6] {
    let mask = table.max_extended_state();
    let topology = levels(table).map(|[(threads, thread_shift), (processors, core_shift)]| {
        let counts = [("threads_per_core", threads.into()), ("logical_processors", processors.into())];
        object(counts).with([("thread_shift", thread_shift.into()), ("core_shift", core_shift.into())])
    });
    [
        ("rows", array(table.rows().map(|row| row_json(&row)))),
        ("combined_mask", hex(mask as u32)),
        ("states", array(components::names(mask))),
        ("save_area_bytes", table.row(0xD, Some(0)).map(|first| first.ecx).into()),
        ("topology", topology.into()),
        ("fingerprint", fingerprint.to_string().into()),
    ]
}

/// A table in words, or a processor's view of it: its rows, what a reader asks of the whole, and the table's fingerprint.
pub fn text(table: &Table, form: Form, fingerprint: Fingerprint) -> String {
    let rows: String = table.rows().map(|row| form.row(&row)).collect();
    form.heading().to_string() + &rows + &summary(table, fingerprint)
}

/// What a reader asks of the whole table.
fn summary(table: &Table, fingerprint: Fingerprint) -> String {
    let mask = table.max_extended_state();
    let mut text = format!("\n{:15}{}\n{:15}{fingerprint}\n", "rows", table.rows().count(), "fingerprint");
    text += &wrapped(&format!("{:15}", "combined mask"), &format!("{mask:08X}: {}", components::names(mask).join(" ")));
    if let Some(first) = table.row(0xD, Some(0)) {
        text += &format!("{:15}{} bytes\n", "save area", first.ecx);
    }
    text + &wrapped(&format!("{:15}", "topology"), &topology(table))
}

/// The processors and the APIC id shift of the two levels of leaf Bh; an accepted table has both.
fn levels(table: &Table) -> Option<[(u32, u32); 2]> {
    let level = |subleaf| {
        let row = table.find(0xB, Some(subleaf))?;
        Some((cut(&row, "num-lps"), cut(&row, "x2-apic-shift")))
    };
    Some([level(0)?, level(1)?])
}

fn topology(table: &Table) -> String {
    let Some([(threads, thread_shift), (processors, core_shift)]) = levels(table) else { return "none".into() };
    format!(
        "{} per core (APIC id shift {thread_shift}), {} (APIC id shift {core_shift})",
        counted(threads, "thread"),
        counted(processors, "logical processor")
    )
}
