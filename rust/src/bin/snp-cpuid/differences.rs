//! What two tables differ in: rows, feature bits by name, and other registers by value.

use crate::arithmetic::chosen_by;
use crate::features::{self, ECX, EDX, FeatureBit, REGISTERS};
use crate::json::{Json, hex, object};
use crate::print::place_json;
use crate::{print, words};
use snp_cpuid::{Origin, Row, Table, TableComparison};

/// The two tables that are held against each other.
pub struct Tables<'a> {
    /// what the lines call them
    pub names: [&'a str; 2],
    /// whether a line says where the rows that differ came from
    pub origins: bool,
}

/// One difference. Where a row is of one table alone, the other origin is none.
pub struct Difference {
    leaf: u32,
    subleaf: Option<u32>,
    origins: [Option<Origin>; 2],
    what: What,
}

enum What {
    /// a feature bit that the first has and the second has not, or the other way round
    Bit { register: usize, bit: u32, name: &'static str, first: bool },
    /// a register that is no feature register
    Value { register: usize, values: [u32; 2] },
    /// a row of one table alone; `further` where it is that of an extended state that only the second has
    Alone { first: bool, further: bool },
}

/// 1.EDX bit 28, which tells a topology and is no feature.
pub const HTT: (u32, usize, u32) = (0x1, EDX, 28);

/// What two tables differ in, rows in order.
pub fn differences(a: &Table, b: &Table) -> Vec<Difference> {
    let mut found = vec![];
    let states = !a.max_extended_state() & b.max_extended_state();
    for (leaf, subleaf) in places(a, b) {
        let rows = [a.find(leaf, subleaf), b.find(leaf, subleaf)];
        let origins = rows.map(|row| row.map(|row| row.origin));
        let what = match rows {
            [Some(a), Some(b)] => of_rows(&a, &b),
            [a, _] => vec![What::Alone { first: a.is_some(), further: is_state(leaf, subleaf, states) }],
        };
        found.extend(what.into_iter().map(|what| Difference { leaf, subleaf, origins, what }));
    }
    found
}

/// Whether this is the row of a state of the mask.
fn is_state(leaf: u32, subleaf: Option<u32>, mask: u64) -> bool {
    leaf == 0xD && subleaf.is_some_and(|state| (2..64).contains(&state) && mask >> state & 1 == 1)
}

/// The places of either table, in order.
fn places(a: &Table, b: &Table) -> Vec<(u32, Option<u32>)> {
    let mut places: Vec<_> = a.rows().chain(b.rows()).map(|row| (row.leaf, row.subleaf)).collect();
    places.sort();
    places.dedup();
    places
}

fn of_rows(a: &Row, b: &Row) -> Vec<What> {
    let mut found = vec![];
    for (register, values) in words::registers(a).into_iter().zip(words::registers(b)).enumerate() {
        match features::find(a.leaf, a.subleaf, register) {
            Some(feature) => {
                let differ = feature.bits.iter().filter(|(bit, _)| (values.0 ^ values.1) >> bit & 1 == 1);
                found.extend(differ.map(|&(bit, name)| What::Bit { register, bit, name, first: values.0 >> bit & 1 == 1 }));
            }
            None if values.0 != values.1 => found.push(What::Value { register, values: values.into() }),
            None => {}
        }
    }
    found
}

impl Difference {
    /// Whether it stands in the way of a guest that moves from the first table to the second: the second must have every row of the first, every
    /// feature bit and a save area, D.0.ECX, no smaller, be equal elsewhere, and have no row besides but those of further states.
    pub fn blocks(&self) -> bool {
        match self.what {
            What::Bit { register, bit, first, .. } => first || (self.leaf, register, bit) == HTT,
            What::Value { register: ECX, values: [a, b] } if (self.leaf, self.subleaf) == (0xD, Some(0)) => b < a,
            What::Value { .. } => true,
            What::Alone { further, .. } => !further,
        }
    }

    /// Whether it is of the place that a comparison of the two tables names.
    pub fn is_named_by(&self, answer: TableComparison) -> bool {
        let register = match self.what {
            What::Bit { register, .. } | What::Value { register, .. } => Some(register),
            What::Alone { .. } => None,
        };
        match answer {
            TableComparison::NoRow { leaf, subleaf } | TableComparison::Beyond { leaf, subleaf } => {
                (self.leaf, self.subleaf, register) == (leaf, subleaf, None)
            }
            TableComparison::Differs { leaf, subleaf, register: own } => (self.leaf, self.subleaf, register) == (leaf, subleaf, Some(own as usize)),
            _ => false,
        }
    }

    /// Why a guest of the first table cannot move to the second, where it is in the way.
    pub fn obstacle(&self, told: &Tables) -> String {
        let ([a, b], leaf) = (told.names, print::place(self.leaf, self.subleaf));
        match self.what {
            What::Bit { register, bit, name, first: true } => format!("{b} lacks {name}, leaf {leaf} {} bit {bit}", REGISTERS[register]),
            What::Bit { register, bit, name, first: false } => {
                format!("{b} has {name}, leaf {leaf} {} bit {bit}, which {a} has not and which must be equal", REGISTERS[register])
            }
            What::Value { register, values: [in_a, in_b] } => {
                format!("Leaf {leaf} {} must be equal: {a} has {in_a:08X}, {b} {in_b:08X}", REGISTERS[register])
            }
            What::Alone { first: true, .. } => format!("{b} has no row for leaf {leaf}"),
            What::Alone { first: false, .. } => format!("{b} has a row for leaf {leaf}, which {a} has not"),
        }
    }

    /// In words.
    fn told(&self, told: &Tables) -> String {
        let [a, b] = told.names;
        match self.what {
            What::Bit { register, bit, name, first } => {
                let (has, lacks) = if first { (a, b) } else { (b, a) };
                format!("{}  {name} (bit {bit}): {has} has it, {lacks} has not{}", REGISTERS[register], self.marked())
            }
            What::Value { register, values: [in_a, in_b] } => format!("{}  {a} {in_a:08X}, {b} {in_b:08X}", REGISTERS[register]),
            What::Alone { first, .. } => {
                let origin = self.origins[usize::from(!first)].filter(|_| told.origins);
                format!("a row of {} alone{}", if first { a } else { b }, origin.map_or(String::new(), |origin| format!(", {origin}")))
            }
        }
    }

    /// The libraries that choose their code by a feature bit, behind its line.
    fn marked(&self) -> String {
        let What::Bit { register, bit, name, .. } = self.what else { return String::new() };
        let libraries = chosen_by(&FeatureBit { leaf: self.leaf, subleaf: self.subleaf, register, bit, name });
        if libraries.is_empty() { String::new() } else { format!(" ({})", libraries.join(", ")) }
    }

    /// The entries of a row that both tables have; the rows of leaf Bh have none.
    fn entries(&self, told: &Tables) -> Option<String> {
        let ([a, b], [first, second]) = (told.names, self.origins);
        let (first, second) = (first?, second?);
        let entries = if first == Origin::MadeHere { first.to_string() } else { format!("{a} {first}, {b} {second}") };
        told.origins.then_some(entries)
    }

    /// As an object.
    pub fn json(&self) -> Json {
        let what = match self.what {
            What::Bit { register, bit, name, first } => {
                let of = [("register", REGISTERS[register].into()), ("bit", bit.into()), ("name", name.into())];
                object(of).with([("a", first.into()), ("b", (!first).into())])
            }
            What::Value { register, values: [a, b] } => object([("register", REGISTERS[register].into()), ("a", hex(a)), ("b", hex(b))]),
            What::Alone { first, .. } => object([("row_of", if first { "a" } else { "b" }.into())]),
        };
        let Json::Object(what) = what else { return Json::Null };
        object(place_json(self.leaf, self.subleaf)).with([("in_the_way", self.blocks().into())]).with(what)
    }
}

/// A line for each difference and, if asked, one before those of a row on where it came from.
pub fn lines<'a>(told: &Tables, differences: impl Iterator<Item = &'a Difference>) -> String {
    let (mut text, mut last) = (String::new(), None);
    for difference in differences {
        let row = (difference.leaf, difference.subleaf);
        let place = format!("{:12}", print::place(row.0, row.1));
        if last != Some(row) {
            text += &difference.entries(told).map_or(String::new(), |entries| format!("{place}{entries}\n"));
            last = Some(row);
        }
        text += &format!("{place}{}\n", difference.told(told));
    }
    text
}
