//! `nearest`: the first result bit whose flip changes the answer, and what it turns the answer into.

use crate::arguments::Arguments;
use crate::building::{self, Building, refusal_json, told};
use crate::command::Command;
use crate::differences::{Tables, differences, lines};
use crate::failure::Failure;
use crate::features::{self, REGISTERS};
use crate::fields::FIELDS;
use crate::input::{read, shown};
use crate::json::{self, Json, array, object};
use crate::masks::kept;
use crate::print::place_json;
use crate::source::Source;
use crate::standing::word;
use crate::{output, print, words};
use snp_cpuid::{Bit, Refusal, Table};

pub const COMMAND: Command = Command {
    name: "nearest",
    operands: &["PAGES"],
    options: &[&[json::OPTION], building::OPTIONS],
    summary: "print the first reported bit whose flip changes the answer",
    about: "\
Prints the first result bit of the pages whose flip alone changes the table, the refusal or its
details: bits in entries below their page's count, ordered by page, entry, register (EAX, EBX, ECX,
EDX) and bit, all from 0. The second line has the bit's leaf and name and whether it is set. Then
come the answer to the pages as they stand, the answer to a copy with that bit flipped and, where
both are tables, what they differ in. The library finds the bit by a proved function and does not
write the pages.
",
    status: "\
Exit status: 0 where a bit decides, also where the pages as they stand are refused; 1 refused by 15,
1, 2 or 17, or by 20, where no bit decides, since a leaf that every table has is missing; 2 bad
usage or a file that cannot be read.
",
    run,
};

fn run(arguments: &Arguments) -> Result<(), Failure> {
    let building = Building::of(arguments, COMMAND.name)?;
    let file = &arguments.operands[0];
    let Source { pages, options, .. } = building.pages_of(file, read(file)?)?;
    let building = building.under(options);
    let bit = building.nearest(&pages).map_err(|refusal| building.pages_refused(file, refusal, &pages))?;
    let mut flipped = pages.clone();
    bit.flip(&mut flipped);
    let decides = Deciding::of(bit, &pages);
    let (before, after) = (building.build(&pages), building.build(&flipped));
    if building.json() {
        let answer = object([("answer", "found".into()), ("file", shown(file).into()), ("edition", building.edition().into())]);
        let answers = [("as_it_stands", answer_json(&before, building, &pages)), ("flipped", answer_json(&after, building, &flipped))];
        let differences = match (&before, &after) {
            (Ok(before), Ok(after)) => differences(before, after),
            _ => vec![],
        };
        let differences = array(differences.iter().map(|difference| difference.json()));
        return output::print(answer.with(decides.json()).with(answers).with([("differences", differences)]).to_string());
    }
    output::print(format!("{}\n{}", decides.told(), changed(&before, &after)))
}

/// The bit with its leaf and name.
struct Deciding {
    bit: Bit,
    leaf: u32,
    /// the subleaf; none for a leaf without, which takes its first entry for any ECX_IN
    subleaf: Option<u32>,
    name: String,
    set: bool,
}

impl Deciding {
    fn of(bit: Bit, pages: &[u8]) -> Deciding {
        let (start, register) = (bit.entry_start(), bit.register as usize);
        let leaf = word(pages, start);
        let subleaf = kept(leaf, word(pages, start + 4)).and_then(|kept| kept.subleaf);
        let set = word(pages, start + 24 + 4 * register) >> bit.bit & 1 == 1;
        Deciding { bit, leaf, subleaf, name: name(leaf, subleaf, register, bit.bit), set }
    }

    /// Its place, and under it its leaf, its name, and whether it is set.
    fn told(&self) -> String {
        let Bit { page, entry, bit, .. } = self.bit;
        let (register, state) = (REGISTERS[self.bit.register as usize], if self.set { "set" } else { "clear" });
        let row = print::place(self.leaf, self.subleaf);
        format!("page {page}, entry {entry}, {register} bit {bit}\nleaf {row} {register} bit {bit}, {}: {state}\n", self.name)
    }

    fn json(&self) -> Vec<(&'static str, Json)> {
        let Bit { page, entry, bit, .. } = self.bit;
        let place = [("page", page.into()), ("entry", entry.into())].into_iter().chain(place_json(self.leaf, self.subleaf));
        let register = REGISTERS[self.bit.register as usize];
        place.chain([("register", register.into()), ("bit", bit.into()), ("name", self.name.as_str().into()), ("set", self.set.into())]).collect()
    }
}

fn answer_json(answer: &Result<Table, Refusal>, building: Building, pages: &[u8]) -> Json {
    match answer {
        Ok(table) => object([("answer", "accepted".into()), ("rows", table.rows().count().into())]),
        Err(refusal) => object([("answer", "refused".into()), ("refusal", refusal_json(*refusal, &building.reason(*refusal, pages)))]),
    }
}

/// A feature's name, or the field that the bit is of.
fn name(leaf: u32, subleaf: Option<u32>, register: usize, bit: u32) -> String {
    let feature = features::find(leaf, subleaf, register).and_then(|feature| feature.names(1 << bit).first().copied());
    let of_row = |f: &&crate::fields::Field| (f.leaf, f.subleaf, f.register) == (leaf, subleaf, register);
    let field = FIELDS.iter().filter(of_row).find(|f| (f.low..f.low + f.width).contains(&bit));
    match (feature, field) {
        (Some(feature), _) => feature.into(),
        (None, Some(field)) => format!("bit {} of {}", bit - field.low, field.name),
        (None, None) => "without a name here".into(),
    }
}

/// The two answers, and where both are tables what they differ in.
fn changed(before: &Result<Table, Refusal>, after: &Result<Table, Refusal>) -> String {
    let answers = format!("as it stands  {}\nflipped       {}\n", said(before), said(after));
    match (before, after) {
        (Ok(before), Ok(after)) => {
            let names = Tables { names: ["as it stands", "flipped"], origins: false };
            answers + "\n" + &lines(&names, differences(before, after).iter())
        }
        _ => answers,
    }
}

fn said(answer: &Result<Table, Refusal>) -> String {
    match answer {
        Ok(table) => format!("accepted, {}", words::counted(table.rows().count() as u32, "row")),
        Err(refusal) => told(*refusal),
    }
}
