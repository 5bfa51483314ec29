//! `entries`: every entry of pages as it stands, whether or not they give a table.

use crate::arguments::Arguments;
use crate::building::{self, Building, refusal_json, told};
use crate::command::Command;
use crate::failure::Failure;
use crate::input::read;
use crate::json::{self, Json, Part, array, object};
use crate::output;
use crate::print::{place, place_json, registers_json};
use crate::reasons::hex_bytes;
use crate::standing::{Place, Standing};
use crate::words::counted;
use snp_cpuid::{Origin, Refusal, Table};

pub const COMMAND: Command = Command {
    name: "entries",
    operands: &["PAGES"],
    options: &[&[json::OPTION], building::OPTIONS],
    summary: "print every entry of the pages as it stands, refused or not",
    about: "\
Prints every entry of the pages, whether or not they give a table: its place on its page, its leaf
and subleaf, the four registers as they stand, and what comes of it. Where a table keeps the leaf,
the line under it has the registers as masked. 'first' is the entry that a table takes for its row;
'later' one behind it, which is not read; 'not kept' one of a leaf that no table reads; 'not
counted' one at or above its page's count, printed where it is not all zeros, or of leaf Dh on
another page than 1. XCR0_IN, XSS_IN and reserved bytes are printed where they are not zero. The
first line has the answer to the pages, and after a refusal come the numbers that it rests on and
what change would be accepted.

Where the pages are refused by 1, 2 or 17, 'first' is said of what can be read: whole pages, their
first 64 entries at most, whatever the reserved bytes hold.
",
    status: "\
Exit status: 0 printed, also where the pages are refused; 2 bad usage or a file that cannot be read.
",
    run,
};

/// The pages with their answer.
struct Report {
    file: String,
    building: Building,
    pages: Vec<u8>,
    standing: Standing,
    answer: Result<Table, Refusal>,
}

fn run(arguments: &Arguments) -> Result<(), Failure> {
    let building = Building::of(arguments, COMMAND.name)?;
    let file = &arguments.operands[0];
    let source = building.pages_of(file, read(file)?)?;
    let building = building.under(source.options);
    let (standing, answer) = (Standing::of(&source.pages), building.build(&source.pages));
    let report = Report { file: source.file, building, pages: source.pages, standing, answer };
    if building.json() {
        output::print_parts(report.json().text())?;
    } else {
        output::print(report.text())?;
    }
    report.answer.err().map_or(Ok(()), |refusal| building.print_line(refusal))
}

/// What comes of an entry.
#[derive(Clone, Copy)]
enum Use<'a> {
    First,
    Later(&'a Place),
    NotKept,
    AboveCount,
    OtherPage,
}

impl Use<'_> {
    fn name(&self) -> &'static str {
        match self {
            Use::First => "first",
            Use::Later(_) => "later",
            Use::NotKept => "not kept",
            Use::AboveCount | Use::OtherPage => "not counted",
        }
    }

    fn told(&self) -> String {
        match self {
            Use::First | Use::NotKept => self.name().into(),
            Use::Later(first) => format!("later: {} is first", first.name()),
            Use::AboveCount => "not counted: its page counts fewer".into(),
            Use::OtherPage => "not counted: leaf Dh counts on page 1 alone".into(),
        }
    }
}

impl Report {
    fn used(&self, entry: &Place) -> Use<'_> {
        match entry.kept() {
            _ if !entry.below_count => Use::AboveCount,
            None => Use::NotKept,
            Some(_) if !entry.counts() => Use::OtherPage,
            Some(kept) => match self.standing.first(kept.leaf, kept.subleaf) {
                Some(first) if (first.page, first.entry) != (entry.page, entry.entry) => Use::Later(first),
                _ => Use::First,
            },
        }
    }

    fn masked(&self, entry: &Place) -> Option<[u32; 4]> {
        entry.kept().map(|kept| kept.masked(entry.registers, self.building.secure_avic()))
    }

    fn text(&self) -> String {
        let mut text = match &self.answer {
            Ok(table) => format!("{}: accepted, {}\n", self.file, counted(table.rows().count() as u32, "row")),
            Err(refusal) => {
                let notes = self.building.reason(*refusal, &self.pages).notes();
                format!("{}: {}\n", self.file, told(*refusal)) + &notes.iter().map(|note| format!("{note}\n")).collect::<String>()
            }
        };
        let mut entries = self.standing.places.iter().peekable();
        for (page, count) in self.standing.counts.iter().enumerate() {
            text += &format!("\npage {page}, count {count}\nentry  leaf        EAX      EBX      ECX      EDX\n");
            while let Some(entry) = entries.next_if(|entry| entry.page == page) {
                text += &self.lines(entry);
            }
        }
        if self.standing.over > 0 {
            text += &format!("\n{} after the last whole page\n", counted(self.standing.over as u32, "byte"));
        }
        text
    }

    /// Why an accepted table has no row of a first entry.
    fn unused(&self, entry: &Place) -> &'static str {
        match (&self.answer, entry.leaf) {
            (Ok(_), 0xB) => ", but the builder makes this row",
            (Ok(_), _) if !self.in_table(entry) => ", but the table does not have its state",
            _ => "",
        }
    }

    /// Whether a row of the table came from it.
    fn in_table(&self, entry: &Place) -> bool {
        let own = Origin::Entry { page: entry.page, entry: entry.entry };
        matches!(&self.answer, Ok(table) if table.rows().any(|row| row.origin == own))
    }

    /// An entry's lines: as it stands, as masked, and what else is not zero.
    fn lines(&self, entry: &Place) -> String {
        let values = |registers: [u32; 4]| registers.map(|value| format!("{value:08X}")).join(" ");
        let name = place(entry.leaf, Some(entry.subleaf));
        let used = self.used(entry);
        let unused = if matches!(used, Use::First) { self.unused(entry) } else { "" };
        let mut text = format!("{:5}  {name:12}{}  {}{unused}\n", entry.entry, values(entry.registers), used.told());
        if let Some(masked) = self.masked(entry) {
            text += &format!("       masked      {}\n", values(masked));
        }
        if (entry.xcr0, entry.xss) != (0, 0) {
            text += &format!("       XCR0_IN {:X}, XSS_IN {:X}\n", entry.xcr0, entry.xss);
        }
        if entry.reserved != [0; 8] {
            text += &format!("       reserved bytes {}\n", hex_bytes(&entry.reserved));
        }
        text
    }

    /// The object; its entries are made one by one, as there may be a million.
    fn json(&self) -> Part<'_> {
        let refusal = self.answer.as_ref().err().map(|refusal| refusal_json(*refusal, &self.building.reason(*refusal, &self.pages)));
        Part::Members(vec![
            ("answer", if self.answer.is_ok() { "accepted" } else { "refused" }.into()),
            ("file", self.file.as_str().into()),
            ("refusal", refusal.into()),
            ("counts", array(self.standing.counts.iter().copied()).into()),
            ("bytes_over", self.standing.over.into()),
            ("entries", Part::items(self.standing.places.iter().map(|entry| self.entry_json(entry)))),
        ])
    }

    fn entry_json(&self, entry: &Place) -> Json {
        let used = self.used(entry);
        let masked = self.masked(entry).map(|masked| object(registers_json(masked)));
        object([("page", entry.page.into()), ("entry", entry.entry.into())])
            .with(place_json(entry.leaf, Some(entry.subleaf)))
            .with([("use", used.name().into()), ("counted", entry.counts().into()), ("kept", entry.kept().is_some().into())])
            .with([("first", matches!(used, Use::First).into()), ("in_table", self.in_table(entry).into())])
            .with(registers_json(entry.registers))
            .with([("masked", masked.into()), ("xcr0_in", wide(entry.xcr0)), ("xss_in", wide(entry.xss))])
            .with([("reserved", hex_bytes(&entry.reserved).into())])
    }
}

fn wide(number: u64) -> Json {
    format!("{number:X}").into()
}
