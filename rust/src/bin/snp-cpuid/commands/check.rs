//! `check`: whether the processors of a running guest see a table.

use crate::arguments::Arguments;
use crate::building::{self, Building, told};
use crate::command::Command;
use crate::failure::Failure;
use crate::features::REGISTERS;
use crate::input::{read, reason, shown};
use crate::json::{self, Json, array, hex, object};
use crate::option::{Opt, Value};
use crate::print::{bit_json, place, place_json};
use crate::source::Source;
use crate::view::{self, Held, Unlike, View};
use crate::words::counted;
use crate::wrap::wrapped;
use crate::{output, processor};
use snp_cpuid::{Processor, Table};

const DUMP: Opt = Opt {
    names: &["--dump"],
    value: Value::Input("FILE"),
    required: false,
    help: "read what the processors show from the text of 'cpuid -r' or to-dump, instead of asking",
};

/// So many registers of a processor are told.
const TOLD: usize = 6;

pub const COMMAND: Command = Command {
    name: "check",
    operands: &["TABLE"],
    options: &[&[DUMP, json::OPTION], building::OPTIONS_BUT_LINE],
    summary: "ask inside a guest whether its processors see a table",
    about: "\
Run it inside a guest, with the table that was published for it: an image that 'image' or 'pool'
wrote, or any file that gives pages. It goes to every processor that it may run on, asks CPUID there for each row of the
table, takes XCR0 by XGETBV and the processor's number from leaf B, and holds each register against
what the library gives this processor's guest. A program cannot read XSS: one of the few states that
the table allows must fit D.1.EBX. Leaves that no table has are not looked at.

'same' says that every processor sees this table. A processor's views of two tables are equal only
where the tables agree in every register but those that a view replaces, which are 1.EBX bits 24-31,
1.ECX bit 27, D.0.EBX and D.1.EBX (proved as views-tell-tables). So the guest runs under this table,
or under one in which no program that asks CPUID can see a difference. It does not say that a hidden
instruction cannot be run, nor what the guest saw before.

With --dump it does the same over the text of 'cpuid -r' of all processors. A dump has no XCR0
either: one of the states that the table allows must fit D.0.EBX and D.1.EBX.
",
    status: "\
Exit status: 0 the same, 1 not, and for each processor the first registers that differ; 2 bad usage,
a file that gives no table, a processor that cannot be asked, or a dump without leaf D.
",
    run,
};

fn run(arguments: &Arguments) -> Result<(), Failure> {
    let building = Building::of(arguments, COMMAND.name)?;
    // a list that is refused gives no table either: status 1 would say that the guest differs
    let source = building.heeding(&arguments.operands[0]).map_err(|failure| match failure {
        Failure::No { line, .. } => Failure::Bad(line),
        other => other,
    })?;
    let table = table(&source)?;
    let views = match arguments.value(DUMP.name()) {
        Some(file) => view::dumped(&read(file)?).map_err(|why| Failure::Bad(format!("{}: {why}", shown(file))))?,
        None => view::asked(&table).map_err(|error| Failure::Bad(format!("a processor cannot be asked: {}", reason(&error))))?,
    };
    let held = views.iter().map(|view| (view, view.held(&table))).collect();
    let report = Report { table, held };
    output::print(if building.json() { report.json(&source.file).to_string() } else { report.text() })?;
    output::note("leaves that no table has are not looked at");
    if report.unlike().next().is_none() { Ok(()) } else { Err(Failure::AnswerNo) }
}

/// The table of a file; a file without rows is no published table.
fn table(source: &Source) -> Result<Table, Failure> {
    let table = source.table().map_err(|refusal| format!("it gives no table: {}", told(refusal)));
    let table = table.and_then(|table| if table.row_count() == 0 { Err("its table has no rows".into()) } else { Ok(table) });
    table.map_err(|why| Failure::Bad(format!("{}: {why}", source.file)))
}

/// Each processor's view, held against the table.
struct Report<'a> {
    table: Table,
    held: Vec<(&'a View, Held)>,
}

impl Report<'_> {
    /// The processors that do not see the table.
    fn unlike(&self) -> impl Iterator<Item = &(&View, Held)> {
        self.held.iter().filter(|(_, held)| !held.unlike.is_empty() || !held.allowed)
    }

    fn text(&self) -> String {
        let (all, unlike) = (counted(self.held.len() as u32, "processor"), self.unlike().count());
        let fingerprint = self.table.fingerprint();
        match unlike {
            0 if self.held.len() == 1 => format!("same: 1 processor sees the table {fingerprint}\n"),
            0 => format!("same: {all} see the table {fingerprint}\n"),
            1 => format!("no: 1 of {all} does not see the table {fingerprint}\n") + &self.each(),
            _ => format!("no: {unlike} of {all} do not see the table {fingerprint}\n") + &self.each(),
        }
    }

    /// The lines of each processor that does not see the table.
    fn each(&self) -> String {
        self.unlike().map(|(view, held)| lines(view, held)).collect()
    }

    fn json(&self, file: &str) -> Json {
        let same = self.unlike().next().is_none();
        let answer = [("answer", if same { "same" } else { "no" }.into()), ("file", file.into())];
        object(answer).with([
            ("fingerprint", self.table.fingerprint().to_string().into()),
            ("processors", array(self.held.iter().map(|(view, held)| held_json(view, held)))),
        ])
    }
}

/// A processor with its state, and the first registers that differ.
fn lines(view: &View, held: &Held) -> String {
    let Processor { x2apic, xcr0, xss, osxsave, .. } = held.processor;
    let mut text = format!("{}, x2APIC {x2apic:X}, XCR0 {xcr0:X}, XSS {xss:X}, OSXSAVE {}\n", view.name, if osxsave { "on" } else { "off" });
    if !held.allowed {
        text += "   this XCR0 is beyond the table\n";
    }
    text += &held.unlike.iter().take(TOLD).map(line).collect::<String>();
    let more = held.unlike.len().saturating_sub(TOLD) as u32;
    if more > 0 {
        text += &format!("   and {} more, which --json has\n", counted(more, "register"));
    }
    text
}

fn line(unlike: &Unlike) -> String {
    let label = format!("   {:11} {}  ", place(unlike.leaf, unlike.subleaf), REGISTERS[unlike.register]);
    let here = unlike.here.map_or("no such row".into(), |here| format!("{here:08X}"));
    let names: Vec<&str> = unlike.bits().iter().map(|bit| bit.name).collect();
    let names = if names.is_empty() { String::new() } else { format!(": {}", names.join(" ")) };
    wrapped(&label, &format!("table {:08X}, here {here}{names}", unlike.table))
}

fn held_json(view: &View, held: &Held) -> Json {
    let answer = [("name", view.name.as_str().into()), ("same", (held.allowed && held.unlike.is_empty()).into())];
    let unlike = ("unlike", array(held.unlike.iter().map(unlike_json)));
    object(answer).with([("state_allowed", held.allowed.into()), ("processor", processor::json(held.processor)), unlike])
}

fn unlike_json(unlike: &Unlike) -> Json {
    let values = [("register", REGISTERS[unlike.register].into()), ("table", hex(unlike.table)), ("here", unlike.here.map_or(Json::Null, hex))];
    object(place_json(unlike.leaf, unlike.subleaf)).with(values).with([("bits", array(unlike.bits().iter().map(bit_json)))])
}
