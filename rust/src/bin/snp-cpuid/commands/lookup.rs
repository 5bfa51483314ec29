//! `lookup`: the row of one leaf, or all rows of a leaf with subleaves.

use crate::arguments::Arguments;
use crate::building::{self, Building, edition_json};
use crate::command::Command;
use crate::failure::Failure;
use crate::features::{FEATURES, FeatureBit, REGISTERS};
use crate::input::shown;
use crate::json::{self, Json, array, object};
use crate::numbers::leaf_number;
use crate::option::Opt;
use crate::print::{self, Form, bit_json, place_json, row_json};
use crate::suggest::nearest;
use crate::{output, processor, words};
use snp_cpuid::{Row, Table};
use std::ffi::OsStr;

const ENFORCE: Opt = Opt::flag(&["--enforce"], "take the subleaf by the letter");

pub const COMMAND: Command = Command {
    name: "lookup",
    operands: &["PAGES", "LEAF[.SUB]"],
    options: &[&[ENFORCE, print::ORIGINS, json::OPTION], processor::SOMETIMES, building::OPTIONS],
    summary: "print the row of one leaf, or whether a feature is there",
    about: "\
Prints the row of one leaf, and subleaf where one is given, as leaf_result_ref of OpenHCL finds it;
of a leaf with subleaves all rows where none is given. Both numbers are hexadecimal, alone, after 0x
or before h: 80000008, 0x80000008 and 80000008h are the same leaf, D.B is leaf Dh subleaf 11. A leaf
without subleaves is found under any subleaf. With --enforce a leaf with subleaves is found only
under a subleaf that the table has, and one without only where none is given. With --apic, --xcr0
and --xss it is the row that the guest of that processor sees, as 'guest' prints it. With --origins
the row's line ends in its source entry, as 'table' has it.

In the place of a leaf the name of a feature bit may stand, as 'table' prints it, in capitals or not:
FMA, avx2. Its line says in which register the bit is and whether it is set; some names stand in two
registers. A name that is a number too, as DE is, stands for the bit: the leaf is DEh or 0xDE.
",
    status: "\
Exit status: 0 found, 1 the pages are refused, 2 bad usage or a file that cannot be read, 3 the
table has no such row, or not that feature.
",
    run,
};

fn run(arguments: &Arguments) -> Result<(), Failure> {
    let bits = named(&arguments.operands[1]);
    let (leaf, subleaf) = if bits.is_empty() { asked(&arguments.operands[1])? } else { Default::default() };
    let seen = processor::of(arguments, COMMAND.name)?;
    let building = Building::of(arguments, COMMAND.name)?;
    let file = &arguments.operands[0];
    let table = building.seen(file, seen)?;
    if !bits.is_empty() {
        return told_bits(&bits, &table, &shown(file), building);
    }
    let rows = found(&table, leaf, subleaf, arguments.has(&ENFORCE));
    let absent = rows.is_empty().then(|| Failure::NotFound(absent(&table, leaf, subleaf)));
    if building.json() {
        let answer = if absent.is_some() { "not found" } else { "found" };
        let asked = object([("answer", answer.into()), ("file", shown(file).into()), ("edition", edition_json(&table, building.edition()))])
            .with(place_json(leaf, subleaf))
            .with([("processor", seen.map(processor::json).into())]);
        output::print(asked.with([("rows", Json::Array(rows.iter().map(row_json).collect()))]).to_string())?;
    } else if absent.is_none() {
        let form = Form::of(arguments);
        output::print(form.heading().to_string() + &rows.iter().map(|row| form.row(row)).collect::<String>())?;
    }
    absent.map_or(Ok(()), Err)
}

/// The feature bits of a name, in whichever case it is written; some names stand in two registers.
fn named(operand: &OsStr) -> Vec<FeatureBit> {
    let name = operand.to_str().unwrap_or_default();
    FEATURES.iter().flat_map(|register| register.bits_of(u32::MAX)).filter(|bit| bit.name.eq_ignore_ascii_case(name)).collect()
}

/// Whether the table has feature bits of one name: all of them, where there are several.
fn told_bits(bits: &[FeatureBit], table: &Table, file: &str, building: Building) -> Result<(), Failure> {
    let set = |bit: &FeatureBit| table.find(bit.leaf, bit.subleaf).is_some_and(|row| words::registers(&row)[bit.register] >> bit.bit & 1 == 1);
    let all = bits.iter().all(set);
    if building.json() {
        let answer = if all { "found" } else { "not found" };
        let head = object([("answer", answer.into()), ("file", file.into()), ("edition", edition_json(table, building.edition()))]);
        let told = |bit: &FeatureBit| bit_json(bit).with([("set", set(bit).into())]);
        output::print(head.with([("bits", array(bits.iter().map(told)))]).to_string())?;
    } else {
        let state = |bit: &FeatureBit| if set(bit) { "set" } else { "clear" };
        let line = |bit: &FeatureBit| {
            let place = print::place(bit.leaf, bit.subleaf);
            format!("{}  leaf {place} {} bit {}: {}\n", bit.name, REGISTERS[bit.register], bit.bit, state(bit))
        };
        output::print(bits.iter().map(line).collect::<String>())?;
    }
    if all { Ok(()) } else { Err(Failure::NotFound(format!("{file}: its table does not have {}", bits[0].name))) }
}

/// The row that `leaf_result_ref` finds. Unless the subleaf is enforced, a leaf with subleaves that is asked for without one gives all its rows.
fn found(table: &Table, leaf: u32, subleaf: Option<u32>, enforce: bool) -> Vec<Row> {
    match table.lookup(leaf, subleaf, enforce) {
        // a leaf without subleaves answers under any
        Some(_) => table.find(leaf, subleaf).or_else(|| table.find(leaf, None)).into_iter().collect(),
        None if subleaf.is_none() && !enforce => table.rows().filter(|row| row.leaf == leaf).collect(),
        None => vec![],
    }
}

/// LEAF or LEAF.SUB, hexadecimal, alone, after 0x or before h.
fn asked(operand: &OsStr) -> Result<(u32, Option<u32>), Failure> {
    let text = operand.to_str().unwrap_or_default();
    let number = leaf_number;
    let numbers = match text.split_once('.') {
        None => number(text).map(|leaf| (leaf, None)),
        Some((leaf, subleaf)) => number(leaf).zip(number(subleaf)).map(|(leaf, subleaf)| (leaf, Some(subleaf))),
    };
    numbers.ok_or_else(|| {
        let given = shown(operand);
        let near = nearest(&given.to_uppercase(), FEATURES.iter().flat_map(|register| register.bits.iter().map(|(_, name)| *name)));
        let meant = near.filter(|_| given.len() > 2).map_or(String::new(), |near| format!(", did you mean '{near}'?"));
        let wanted = "is no LEAF[.SUB], hexadecimal numbers as in 80000008, 80000008h or 0xD.1, and no feature's name";
        Failure::usage(COMMAND.name, &format!("'{given}' {wanted}{meant}"))
    })
}

/// Why nothing was found.
fn absent(table: &Table, leaf: u32, subleaf: Option<u32>) -> String {
    let name = print::place(leaf, subleaf);
    let mut same = table.rows().filter(|row| row.leaf == leaf).peekable();
    match (same.peek().map(|row| row.subleaf), subleaf) {
        (None, _) => format!("leaf {name} is not in the table"),
        (Some(None), _) => format!("leaf {name} is not in the table: leaf {leaf:08X} has no subleaves"),
        (Some(Some(_)), subleaf) => {
            let all: Vec<String> = same.filter_map(|row| row.subleaf).map(|k| format!("{k:X}")).collect();
            let asked = if subleaf.is_none() { "must be asked for by subleaf" } else { "is not in the table" };
            format!("leaf {name} {asked}: leaf {leaf:08X} has subleaves {}", all.join(", "))
        }
    }
}
