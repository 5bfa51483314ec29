//! `compare`: whether a guest of one server may move to another, why not, and what their tables differ in.

use crate::arguments::Arguments;
use crate::arithmetic::chosen_by;
use crate::building::{self, Building, refusal_json, told};
use crate::command::Command;
use crate::differences::{Difference, HTT, Tables, differences, lines};
use crate::failure::Failure;
use crate::features::{self, FeatureBit, REGISTERS};
use crate::fleet::bits::{self, Bits};
use crate::fleet::text::listed;
use crate::json::{self, Json, array, hex, object};
use crate::masks::kept;
use crate::option::Opt;
use crate::print::{bit_json, place, place_json};
use crate::processor::all_states;
use crate::source::Source;
use crate::standing::Standing;
use crate::wrap::wrapped;
use crate::{output, processor, words};
use snp_cpuid::{Comparison, Fingerprint, Refusal, Register, Table, TableComparison};

/// One of the two, under the name that the report gives it: its pages, or the image of its table.
struct Server {
    name: &'static str,
    file: String,
    pages: Vec<u8>,
    is_image: bool,
    standing: Standing,
    /// what is compared: the table, or what one processor sees of it
    table: Result<Table, Refusal>,
    /// of the table itself
    fingerprint: Option<Fingerprint>,
}

impl Server {
    /// Where its entry for a leaf and subleaf stands.
    fn entry(&self, leaf: u32, subleaf: Option<u32>) -> String {
        self.standing.first(leaf, subleaf).expect("the library has compared this entry").name()
    }

    /// Its lines under the answer.
    fn lines(&self) -> String {
        let answer = match &self.table {
            Ok(table) => {
                let (what, rows) = (if self.is_image { "an image" } else { "accepted" }, words::counted(table.rows().count() as u32, "row"));
                let fingerprint = self.fingerprint.map_or(String::new(), |fingerprint| format!("\n   fingerprint {fingerprint}"));
                format!("{what}, {rows}{fingerprint}")
            }
            Err(refusal) => told(*refusal),
        };
        format!("{}  {}: {answer}\n", self.name, self.file)
    }

    fn json(&self, building: Building) -> Json {
        let refusal = self.table.as_ref().err().map(|refusal| refusal_json(*refusal, &building.reason(*refusal, &self.pages)));
        let fingerprint = self.fingerprint.map(|fingerprint| fingerprint.to_string());
        let answer = [("accepted", self.table.is_ok().into()), ("image", self.is_image.into()), ("refusal", refusal.into())];
        object([("file", self.file.as_str().into())]).with(answer).with([("fingerprint", fingerprint.into())])
    }
}

const SAME: Opt = Opt::flag(&["--same"], "exit with 0 only where A and B give a guest the same table");

pub const COMMAND: Command = Command {
    name: "compare",
    operands: &["A", "B"],
    options: &[&[SAME, processor::VIEW, json::OPTION], building::OPTIONS],
    summary: "say whether A and B give one table, or a guest of A may move to B, and why not",
    about: "\
Compares two servers. The first line begins with one of three words. 'same': A and B give a guest
the same table, so programs see no difference. 'yes': a running guest of A may move to B, because
B's table has every row of A's, at least A's features, a save area no smaller, and everything else
equal; programs that start there may see more, and the line names the feature bits. 'no', and the
first bit, register or row in the way. Then come the two fingerprints, and the differences of the
two tables: first those in the way from A to B, each feature bit by name, each other register by
value and each row that B lacks, with the page and entry of A's and B's, counted from 0; then those
that are not, where B has more.

By some bits libraries choose the code that computes, so a program that starts may print another
last decimal: by FMA with AVX2, and by FMA4, glibc's libm; by FMA with AVX2, and by AVX512DQ, its
vector library libmvec; by AVX, AVX2 and AVX512VL OpenBLAS. Such bits are marked with these names. A
guest that must print the same figures after a restart needs --same, or the table of a pool.

What was captured or dumped inside a guest has the number of its processor and the sizes of its
XCR0 and XSS in the place of the table's. With --view these are left out of the verdict: both
tables are compared as processor 0 sees them, with all states on that A's table allows.

The last lines compare the entries, in both directions. There 'yes' says more: for every row of A's
table but 0 and 80000000 B has a first entry with at least the bits of A's in feature registers, and
equal in all others but D.0.ECX and the rows of leaf B. It can be said before B's table is built,
and it promises that B's table is at least A's under any edition of the AVX rule. Entries may
differ where a rule makes the tables agree. The library decides both by a proved function.

A or B may be an image: then its table is compared, and of entries nothing is said. Give the pages
that the servers have, or both from dumps of the same kind: pages made from the text of to-dump hold
what the table's rules have set and cleared, such as BTC_NO.
",
    status: "\
Exit status: 0 same or yes, with --same only same; else 1, also where one of them is refused, which
standard error says; 2 bad usage or a file that cannot be read.
",
    run,
};

fn run(arguments: &Arguments) -> Result<(), Failure> {
    let building = Building::of(arguments, COMMAND.name)?;
    let server = |name, source: Source| {
        let (table, standing) = (source.table(), Standing::of(&source.pages));
        let fingerprint = table.as_ref().ok().map(Table::fingerprint);
        Server { name, file: source.file, is_image: source.image.is_some(), pages: source.pages, standing, table, fingerprint }
    };
    let source = |place: usize| building.source(&arguments.operands[place]);
    let sources = [source(0)?, source(1)?];
    building.heeded_by(&sources)?;
    let [a, b] = sources;
    let (mut a, mut b) = (server("A", a), server("B", b));
    let view = arguments.has(&processor::VIEW);
    if let (true, Ok(from), Ok(to)) = (view, &a.table, &b.table) {
        // where B does not allow A's states it lacks one of them, and that is the answer as it stands
        if let (Ok(from), Ok(to)) = (from.guest(all_states(from)), to.guest(all_states(from))) {
            (a.table, b.table) = (Ok(from), Ok(to));
        }
    }
    let tables = match (&a.table, &b.table) {
        (Ok(from), Ok(to)) => Some(from.compare(to)),
        _ => None,
    };
    let report = Report { tables, rises: Direction::new(&a, &b, building), falls: Direction::new(&b, &a, building), building, view };
    output::print(if building.json() { report.json().to_string() } else { report.text() })?;
    let refused = |server: &Server, refusal| {
        let reason = building.reason(refusal, &server.pages);
        Err(building.refused_after_report(&server.file, refusal, &reason))
    };
    match (&a.table, &b.table) {
        (Err(refusal), _) => refused(&a, *refusal),
        (_, Err(refusal)) => refused(&b, *refusal),
        _ if report.equal() || report.answer() == "yes" && !arguments.has(&SAME) => Ok(()),
        _ => Err(Failure::AnswerNo),
    }
}

/// The answer of the tables for the first direction, where both are there, and both directions by the entries.
struct Report<'a> {
    tables: Option<TableComparison>,
    rises: Direction<'a>,
    falls: Direction<'a>,
    building: Building,
    /// whether what one processor sees was compared
    view: bool,
}

impl Report<'_> {
    fn servers(&self) -> (&Server, &Server) {
        (self.rises.from, self.rises.to)
    }

    fn equal(&self) -> bool {
        let (a, b) = self.servers();
        a.table.is_ok() && a.table == b.table
    }

    /// Whether a guest of A may move to B.
    fn answer(&self) -> &'static str {
        match self.tables {
            None => "refused",
            Some(TableComparison::Rises) => "yes",
            Some(_) => "no",
        }
    }

    /// The answer in words, with the reason.
    fn verdict(&self) -> String {
        match (&self.rises.from.table, &self.rises.to.table) {
            (Err(a), Err(b)) => format!("no: A is refused, by {}, and B, by {}.", a.number(), b.number()),
            (Err(refusal), Ok(_)) => format!("no: A is refused, by {}, so it has no guest.", refusal.number()),
            (Ok(_), Err(refusal)) => format!("no: B is refused, by {}.", refusal.number()),
            _ if self.equal() && self.view => "same: one processor sees the same of A's table and B's, row for row.".into(),
            _ if self.equal() => "same: A and B give a guest the same table, row for row.".into(),
            _ if self.answer() == "yes" => format!("yes: a running guest of A may move to B, {}. {}.", self.seen_there(), self.rises.promise()),
            _ => format!("no: a guest of A may not move to B. {}.", self.obstacle().unwrap_or_default()),
        }
    }

    /// The feature bits that B's table has and A's has not.
    fn more(&self) -> Vec<FeatureBit> {
        match self.servers() {
            (Server { table: Ok(a), .. }, Server { table: Ok(b), .. }) => bits::lacked(b, a).iter().flat_map(Bits::each).collect(),
            _ => vec![],
        }
    }

    /// What a program that starts on B may see, and whether it may compute otherwise.
    fn seen_there(&self) -> String {
        let more = self.more();
        let names = |bits: &mut dyn Iterator<Item = &FeatureBit>| bits.map(|bit| bit.name.to_string()).collect::<Vec<_>>();
        let (all, marked) = (names(&mut more.iter()), names(&mut more.iter().filter(|bit| !chosen_by(bit).is_empty())));
        let seen = if all.is_empty() { "a larger save area".into() } else { listed(&all) };
        let seen = format!("and programs that start there may see more: {seen}");
        if marked.is_empty() { seen } else { format!("{seen}. By {} libraries choose how they compute, so figures may change", listed(&marked)) }
    }

    /// The first thing in the way, by the tables.
    fn obstacle(&self) -> Option<String> {
        let answer = self.tables?;
        let all = self.differences();
        let first = all.iter().find(|difference| difference.blocks() && difference.is_named_by(answer));
        Some(first.map_or_else(|| answer.to_string(), |first| first.obstacle(&NAMES)))
    }

    fn differences(&self) -> Vec<Difference> {
        match self.servers() {
            (Server { table: Ok(a), .. }, Server { table: Ok(b), .. }) => differences(a, b),
            _ => vec![],
        }
    }

    fn text(&self) -> String {
        let (a, b) = self.servers();
        let edition = self.edition().map_or(String::new(), |edition| format!("under edition {edition} of the AVX rule\n"));
        let mut text = wrapped("", &self.verdict()) + "\n" + &a.lines() + &b.lines() + &edition + "\n";
        let all = self.differences();
        for (heading, blocks) in [("In the way from A to B:", true), ("Not in the way from A to B:", false)] {
            let lines = lines(&NAMES, all.iter().filter(|difference| difference.blocks() == blocks));
            if !lines.is_empty() {
                text += &format!("{heading}\n{lines}\n");
            }
        }
        if a.is_image || b.is_image {
            return text + "Of an image nobody knows the entries.\n";
        }
        text + "By the entries, before the other table is built:\n" + &self.rises.told() + &self.falls.told()
    }

    /// The edition, where it made a table here.
    fn edition(&self) -> Option<u32> {
        let (a, b) = self.servers();
        (!a.is_image || !b.is_image).then_some(self.building.edition())
    }

    fn json(&self) -> Json {
        let (a, b) = self.servers();
        let direction = |direction: &Direction| if a.is_image || b.is_image { Json::Null } else { direction.json() };
        object([
            ("answer", self.answer().into()),
            ("edition", self.edition().into()),
            ("equal", self.equal().into()),
            ("view", self.view.into()),
            ("words", self.verdict().into()),
            ("more", array(if self.answer() == "yes" { self.more() } else { vec![] }.iter().map(marked_json))),
            ("a", a.json(self.building)),
            ("b", b.json(self.building)),
            ("differences", array(self.differences().iter().map(Difference::json))),
            ("a_to_b", direction(&self.rises)),
            ("b_to_a", direction(&self.falls)),
        ])
    }
}

/// A feature bit, and the libraries that choose their code by it.
fn marked_json(bit: &FeatureBit) -> Json {
    bit_json(bit).with([("libraries", array(chosen_by(bit).iter().copied()))])
}

/// What lines call the two.
const NAMES: Tables = Tables { names: ["A", "B"], origins: true };

/// What the library says of a guest that moves from one server to the other, by their entries; it is not told where one of them is an image.
struct Direction<'a> {
    from: &'a Server,
    to: &'a Server,
    answer: Comparison,
    secure_avic: bool,
}

/// The first register of two entries that stands in the way, by the entries as masked.
struct Failing {
    register: usize,
    bit: u32,
    name: Option<&'static str>,
    values: [u32; 2],
}

impl Direction<'_> {
    fn new<'a>(from: &'a Server, to: &'a Server, building: Building) -> Direction<'a> {
        Direction { from, to, answer: building.compare(&from.pages, &to.pages), secure_avic: building.secure_avic() }
    }

    /// Whether the library says yes.
    fn holds(&self) -> bool {
        matches!(self.answer, Comparison::Rises)
    }

    /// The line of this direction.
    fn told(&self) -> String {
        let label = format!("{} to {}  ", self.from.name, self.to.name);
        let told = match (self.holds(), &self.to.table) {
            (true, Ok(_)) => format!("yes: {}.", self.promise()),
            (true, Err(refusal)) => format!(
                "{to} has at least {from}'s entries, but {to} is refused, by {}, which only a state that {from} lacks can cause.",
                refusal.number(),
                from = self.from.name,
                to = self.to.name
            ),
            (false, _) => format!("no: {}.", self.obstacle()),
        };
        wrapped(&label, &told)
    }

    /// What a table has where the library says yes.
    fn promise(&self) -> String {
        let (from, to) = (self.from.name, self.to.name);
        format!("{to}'s table has every row of {from}'s, at least {from}'s features, a save area no smaller, and everything else equal")
    }

    /// The first thing in the way.
    fn obstacle(&self) -> String {
        let (from, to) = (self.from.name, self.to.name);
        match self.answer {
            Comparison::Rises => format!("{to} has at least {from}'s entries"),
            Comparison::RefusedA(refusal) => format!("{from} is refused, by {}", refusal.number()),
            Comparison::UnlawfulB(refusal) => format!("{to}'s pages cannot be read: refusal {}", refusal.number()),
            Comparison::NoEntry { leaf, subleaf } => {
                format!("{to} has no entry for leaf {}, which {from} has at {}", place(leaf, subleaf), self.from.entry(leaf, subleaf))
            }
            Comparison::Differs { leaf, subleaf, register } => self.differs(leaf, subleaf, register),
            other => other.to_string(),
        }
    }

    /// The first bit or register in the way. The tables may agree there, where a rule clears what the entries differ in.
    fn differs(&self, leaf: u32, subleaf: Option<u32>, register: Register) -> String {
        let (from, to) = (self.from.name, self.to.name);
        let Failing { register, bit, name, values: [has, lacks] } = self.failing(leaf, subleaf, register);
        let at = [self.from, self.to].map(|server| server.entry(leaf, subleaf));
        let hidden = if self.hidden(leaf, subleaf, register) { ", which the tables do not show" } else { "" };
        let place = format!("leaf {} {}", place(leaf, subleaf), REGISTERS[register]);
        match name {
            Some(name) if has >> bit & 1 == 1 => {
                format!("{to} lacks {name}, {place} bit {bit}: {from} has it at {}, {to} has not at {}{hidden}", at[0], at[1])
            }
            Some(name) => {
                format!("{to} has {name}, {place} bit {bit}, at {}, which {from} has not at {}, and it must be equal{hidden}", at[1], at[0])
            }
            None => {
                format!("{place} must be equal: {from} has {has:08X} at {}, {to} {lacks:08X} at {}, first unlike at bit {bit}{hidden}", at[0], at[1])
            }
        }
    }

    /// The masked values of the register, and its first bit in the way: a feature bit that goes, or any bit where both must be equal.
    fn failing(&self, leaf: u32, subleaf: Option<u32>, register: Register) -> Failing {
        let register = register as usize;
        let value = |server: &Server| {
            let kept = kept(leaf, subleaf.unwrap_or(0)).expect("the library compares kept entries");
            let entry = server.standing.first(leaf, subleaf).expect("the library has compared this entry");
            // D.0.EAX has bits 0 and 1 in every table
            let always = if (leaf, subleaf, register) == (0xD, Some(0), 0) { 3 } else { 0 };
            kept.masked(entry.registers, self.secure_avic)[register] | always
        };
        let values = [value(self.from), value(self.to)];
        let feature = features::find(leaf, subleaf, register);
        let must_be_equal = match feature {
            Some(_) if (leaf, register) == (HTT.0, HTT.1) => 1 << HTT.2,
            Some(_) => 0,
            None => u32::MAX,
        };
        let wrong = values[0] & !values[1] | (values[0] ^ values[1]) & must_be_equal;
        let bit = wrong.trailing_zeros();
        let name = feature.and_then(|feature| feature.bits.iter().find(|(own, _)| *own == bit)).map(|(_, name)| *name);
        Failing { register, bit, name, values }
    }

    /// Whether the two tables agree in a register.
    fn hidden(&self, leaf: u32, subleaf: Option<u32>, register: usize) -> bool {
        let value = |server: &Server| Some(words::registers(&server.table.as_ref().ok()?.find(leaf, subleaf)?)[register]);
        value(self.from).is_some() && value(self.from) == value(self.to)
    }

    fn json(&self) -> Json {
        let base = object([("by_entries", if self.holds() { "yes" } else { "no" }.into())]);
        match self.answer {
            Comparison::Rises => base,
            Comparison::RefusedA(refusal) | Comparison::UnlawfulB(refusal) => base.with([("refused_by", refusal.number().into())]),
            Comparison::NoEntry { leaf, subleaf } => base.with(place_json(leaf, subleaf)),
            Comparison::Differs { leaf, subleaf, register } => {
                let Failing { register, bit, name, values: [from, to] } = self.failing(leaf, subleaf, register);
                let where_at = [("register", REGISTERS[register].into()), ("bit", bit.into()), ("name", name.into())];
                base.with(place_json(leaf, subleaf)).with(where_at).with([
                    ("from", hex(from)),
                    ("to", hex(to)),
                    ("hidden", self.hidden(leaf, subleaf, register).into()),
                ])
            }
            _ => base,
        }
        .with([("words", self.obstacle().into())])
    }
}
