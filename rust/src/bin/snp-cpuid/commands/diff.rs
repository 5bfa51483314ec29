//! `diff`: the entries of two servers side by side, in words, refused or not.

use crate::arguments::Arguments;
use crate::arithmetic::chosen_by;
use crate::building::{self, Building, refusal_json, told};
use crate::command::Command;
use crate::differences::HTT;
use crate::failure::Failure;
use crate::features::{self, EAX, EBX, ECX, FeatureBit, REGISTERS};
use crate::input::read;
use crate::json::{self, Json, array, hex, object};
use crate::masks::{Kept, kept, required};
use crate::print::{bit_json, place, place_json};
use crate::said;
use crate::source::Source;
use crate::standing::Standing;
use crate::wrap::wrapped;
use crate::{output, words};

pub const COMMAND: Command = Command {
    name: "diff",
    operands: &["A", "B"],
    options: &[&[json::OPTION], building::OPTIONS_BUT_LINE],
    summary: "show the entries of two servers side by side, refused or not",
    about: "\
Shows what two servers report, entry by entry, in words: the processor's name, family, model and
stepping, caches, APIC numbers, and feature bits by name. Neither has to be accepted. Each
difference ends in what it matters to:

  table        the tables of the two would differ there
  move         a guest cannot go from A to B, or from B to A, for it
  arithmetic   libraries choose the code that computes by this bit, and are named: a program that
               starts may print other decimals

'no table' marks what no table shows. Entries are compared as they stand, each row's first. Of an
image the rows are compared. 'compare' says whether a guest may move, by a proved function.
",
    status: "\
Exit status: 0 where nothing differs that a table shows, 1 where something does, 2 bad usage or a
file that cannot be read.
",
    run,
};

fn run(arguments: &Arguments) -> Result<(), Failure> {
    let building = Building::of(arguments, COMMAND.name)?;
    let source = |place: usize| building.pages_of(&arguments.operands[place], read(&arguments.operands[place])?);
    let sources = [source(0)?, source(1)?];
    let standings = sources.each_ref().map(|source| Standing::of(&source.pages));
    let differences = differences(&standings, building.secure_avic());
    output::print(if building.json() { object_of(&sources, &differences, building).to_string() } else { text(&sources, &differences) })?;
    if differences.iter().any(|difference| difference.in_table) { Err(Failure::AnswerNo) } else { Ok(()) }
}

/// What differs.
enum What {
    /// a feature bit, and whether A has it
    Bit(FeatureBit, bool),
    /// a register, its values and what they say
    Value { register: usize, values: [u32; 2], words: [String; 2] },
    /// the processor's name
    Name([String; 2]),
    /// an entry of one alone
    Alone { first: bool },
}

/// A difference, and what it matters to.
struct Difference {
    leaf: u32,
    subleaf: Option<u32>,
    what: What,
    in_table: bool,
    /// from A to B, and from B to A
    in_the_way: [bool; 2],
    libraries: &'static [&'static str],
}

/// All differences, rows in order.
fn differences(servers: &[Standing; 2], secure_avic: bool) -> Vec<Difference> {
    let rows = required().chain((2..64).map(|k| (0xD, Some(k))));
    let mut rows: Vec<_> = rows.collect();
    rows.sort();
    let mut found = vec![];
    for (leaf, subleaf) in rows {
        let entries = servers.each_ref().map(|server| server.first(leaf, subleaf).map(|place| place.registers));
        match entries {
            [None, None] => {}
            [Some(a), Some(b)] if said::is_name(leaf) => found.extend((a != b).then(|| name(servers)).flatten()),
            [Some(a), Some(b)] => {
                let kept = kept(leaf, subleaf.unwrap_or(0)).expect("a row that a table has");
                (0..4).for_each(|register| found.extend(of_register(&kept, register, [a, b], secure_avic)));
            }
            [a, _] => found.push(alone(servers, leaf, subleaf, a.is_some())),
        }
    }
    // the name takes three rows
    found.dedup_by(|next, last| matches!((&next.what, &last.what), (What::Name(_), What::Name(_))));
    found
}

/// An entry of one server. That of a state is a row of its table where the server has the state.
fn alone(servers: &[Standing; 2], leaf: u32, subleaf: Option<u32>, first: bool) -> Difference {
    let server = &servers[usize::from(!first)];
    let states = server.masked(0xD, Some(0))[0] | server.masked(0xD, Some(1))[2];
    let in_table = match (leaf, subleaf) {
        (0xD, Some(state @ 2..32)) => states >> state & 1 == 1,
        (0xD, Some(32..)) => false,
        _ => true,
    };
    let state = leaf == 0xD && subleaf >= Some(2);
    let in_the_way = [in_table && (first || !state), in_table && (!first || !state)];
    Difference { leaf, subleaf, what: What::Alone { first }, in_table, in_the_way, libraries: &[] }
}

/// The processors' names.
fn name(servers: &[Standing; 2]) -> Option<Difference> {
    let spelled = |server: &Standing| {
        let registers: Vec<u32> = (0x8000_0002..=0x8000_0004).filter_map(|leaf| server.first(leaf, None)).flat_map(|place| place.registers).collect();
        words::text(&registers)
    };
    let names = servers.each_ref().map(spelled);
    Some(Difference { leaf: 0x8000_0002, subleaf: None, what: What::Name(names), in_table: true, in_the_way: [true; 2], libraries: &[] })
}

/// Bits that every table has, whatever its server reports: x87 and SSE of D.0.EAX, and BTC_NO of 80000008h.EBX.
const ALWAYS: [(u32, Option<u32>, usize, u32); 3] = [(0xD, Some(0), EAX, 0), (0xD, Some(0), EAX, 1), (0x8000_0008, None, EBX, 29)];

/// The differences of a register: each feature bit, and the rest as one.
fn of_register(kept: &Kept, register: usize, entries: [[u32; 4]; 2], secure_avic: bool) -> Vec<Difference> {
    let (leaf, subleaf, mask) = (kept.leaf, kept.subleaf, kept.mask(register, secure_avic));
    let [a, b] = entries.map(|registers| registers[register]);
    let of = |what, in_table, in_the_way, libraries| Difference { leaf, subleaf, what, in_table, in_the_way, libraries };
    let feature = features::find(leaf, subleaf, register);
    let bits = feature.map_or(0, |feature| feature.bits.iter().fold(0, |bits, (bit, _)| bits | 1 << bit));
    let mut found = vec![];
    for bit in feature.into_iter().flat_map(|feature| feature.bits_of((a ^ b) & bits)) {
        let (first, shown) = (a >> bit.bit & 1 == 1, mask >> bit.bit & 1 == 1 && !ALWAYS.contains(&(leaf, subleaf, register, bit.bit)));
        let both = (leaf, register, bit.bit) == HTT;
        found.push(of(
            What::Bit(bit, first),
            shown,
            [shown && (first || both), shown && (!first || both)],
            if shown { chosen_by(&bit) } else { &[] },
        ));
    }
    let rest = (a ^ b) & !bits;
    if rest != 0 {
        let rows = entries.map(|registers| said::row(leaf, subleaf, registers));
        let hidden = |value: u32| format!("{:08X} in bits without a name", value & rest);
        let words = if feature.is_some() { [hidden(a), hidden(b)] } else { said::apart(&rows, register).try_into().expect("one for each") };
        // leaf Bh and the save area are made by the builder
        let shown = rest & mask != 0 && leaf != 0xB && (leaf, subleaf, register) != (0xD, Some(0), ECX);
        found.push(of(What::Value { register, values: [a, b], words }, shown, [shown; 2], &[]));
    }
    found
}

impl Difference {
    /// What it matters to.
    fn matters(&self) -> String {
        let way = match self.in_the_way {
            [true, true] => Some("move".to_string()),
            [true, false] => Some("move from A to B".into()),
            [false, true] => Some("move from B to A".into()),
            [false, false] => None,
        };
        let arithmetic = (!self.libraries.is_empty()).then(|| format!("arithmetic ({})", self.libraries.join(", ")));
        let table = if self.in_table { "table" } else { "no table" };
        [Some(table.to_string()), way, arithmetic].into_iter().flatten().collect::<Vec<_>>().join(", ")
    }

    fn lines(&self) -> String {
        let row = place(self.leaf, self.subleaf);
        let named = |register: usize| said::called(self.leaf, self.subleaf, register).map_or(String::new(), |name| format!(", {name}"));
        match &self.what {
            What::Bit(bit, first) => {
                let (has, lacks) = if *first { ("A", "B") } else { ("B", "A") };
                wrapped(
                    &format!("{row:11} {}  ", REGISTERS[bit.register]),
                    &format!("{}: {has} has it, {lacks} has not [{}]", bit.name, self.matters()),
                )
            }
            What::Value { register, words: [a, b], .. } => {
                let head = format!("{row:11} {}{} [{}]\n", REGISTERS[*register], named(*register), self.matters());
                head + &wrapped("    A  ", a) + &wrapped("    B  ", b)
            }
            What::Name([a, b]) => format!("processor name [{}]\n    A  {a}\n    B  {b}\n", self.matters()),
            What::Alone { first } => format!("{row:11} an entry of {} alone [{}]\n", if *first { "A" } else { "B" }, self.matters()),
        }
    }

    fn json(&self) -> Json {
        let what = match &self.what {
            What::Bit(bit, first) => bit_json(bit).with([("a", (*first).into()), ("b", (!first).into())]),
            What::Value { register, values: [a, b], words } => object(place_json(self.leaf, self.subleaf))
                .with([("register", REGISTERS[*register].into()), ("a", hex(*a)), ("b", hex(*b))])
                .with([("words", array(words.iter().map(String::as_str)))]),
            What::Name(names) => object(place_json(self.leaf, self.subleaf)).with([("words", array(names.iter().map(String::as_str)))]),
            What::Alone { first } => object(place_json(self.leaf, self.subleaf)).with([("entry_of", if *first { "a" } else { "b" }.into())]),
        };
        let [there, back] = self.in_the_way;
        let matters = [("table", self.in_table.into()), ("in_the_way_a_to_b", there.into()), ("in_the_way_b_to_a", back.into())];
        what.with(matters).with([("libraries", array(self.libraries.iter().copied()))])
    }
}

fn text(sources: &[Source; 2], differences: &[Difference]) -> String {
    let head = |(name, source): (&str, &Source)| {
        let answer = match source.table() {
            Ok(table) => format!("accepted, {}", words::counted(table.rows().count() as u32, "row")),
            Err(refusal) => told(refusal),
        };
        wrapped(&format!("{name}  "), &format!("{} ({}): {answer}", source.file, source.kind.name()))
    };
    let heads: String = ["A", "B"].into_iter().zip(sources).map(head).collect();
    let lines: String = differences.iter().map(Difference::lines).collect();
    heads + "\n" + if lines.is_empty() { "The entries are equal.\n" } else { &lines }
}

fn object_of(sources: &[Source; 2], differences: &[Difference], building: Building) -> Json {
    let server = |source: &Source| {
        let refusal = source.table().err().map(|refusal| refusal_json(refusal, &building.reason(refusal, &source.pages)));
        object([("file", source.file.as_str().into()), ("kind", source.kind.name().into()), ("refusal", refusal.into())])
    };
    let answer = if differences.iter().any(|difference| difference.in_table) { "differ" } else { "equal" };
    object([
        ("answer", answer.into()),
        ("a", server(&sources[0])),
        ("b", server(&sources[1])),
        ("differences", array(differences.iter().map(Difference::json))),
    ])
}
