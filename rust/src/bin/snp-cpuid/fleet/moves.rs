//! Where a guest may go: from a class to those that have at least its table, and what stands in the way elsewhere.

use super::bits::{self, Bits, register_name, short_place};
use super::entries::Entries;
use super::groups::processor;
use super::{Answer, Class, Group, Server};
use crate::building::Building;
use crate::components;
use crate::features::{self, EAX, ECX};
use crate::{said, words};
use snp_cpuid::{Comparison, Register, Table, TableComparison};
use std::collections::HashMap;

/// A group of more classes is not compared: that would take more than a second.
pub const MOST_COMPARED: usize = 1000;

/// Beyond so many classes in a group the pages are not compared either.
const MOST_BY_PAGES: usize = 100;

/// Where the guests of each class may go, and what is no more than a note: what the comparison of pages says, which asks more.
pub struct Moves {
    /// for each class the others of its group to whose tables its own rises; none where they were not compared
    pub rises: Vec<Option<Vec<usize>>>,
    /// moves from class to class that the tables allow and the pages of the classes' first servers do not promise
    pub unpromised: Vec<(usize, usize, Comparison)>,
    /// servers between which and the first of their class the pages do not promise a move, to and fro
    pub unlike: Vec<(usize, [Comparison; 2])>,
}

impl Moves {
    pub fn of(groups: &[Group], classes: &[Class], servers: &[Server], entries: &[Entries], building: &Building) -> Moves {
        let rises: Vec<_> = classes.iter().enumerate().map(|(place, class)| rises(place, &groups[class.group], classes)).collect();
        let compared = |from: u32, to: u32| building.compare(&entries[from as usize].pages(), &entries[to as usize].pages());
        // an image has no entries
        let own = |server: &usize| if let Answer::Class { entries, .. } = servers[*server].answer { entries } else { None };
        let firsts: Vec<Option<u32>> = classes.iter().map(|class| class.servers.iter().find_map(own)).collect();
        let few = |class: &usize| groups[classes[*class].group].classes.len() <= MOST_BY_PAGES;
        let allowed = rises.iter().enumerate().filter(|(class, _)| few(class));
        let pairs = allowed.flat_map(|(from, to)| to.iter().flatten().map(move |to| (from, *to)));
        let asked = |(from, to): (usize, usize)| Some((from, to, compared(firsts[from]?, firsts[to]?)));
        let unpromised = pairs.filter_map(asked).filter(|(.., answer)| no(answer)).collect();
        let mut unlike = vec![];
        for (class, first) in classes.iter().zip(&firsts).filter_map(|(class, first)| Some((class, (*first)?))) {
            let mut answers = HashMap::new();
            let others = class.servers.iter().filter_map(|server| Some((*server, own(server)?))).filter(|(_, entries)| *entries != first);
            for (server, entries) in others {
                let answers = *answers.entry(entries).or_insert_with(|| [compared(first, entries), compared(entries, first)]);
                unlike.extend(answers.iter().any(no).then_some((server, answers)));
            }
        }
        Moves { rises, unpromised, unlike }
    }
}

fn no(answer: &Comparison) -> bool {
    *answer != Comparison::Rises
}

fn rises(class: usize, group: &Group, classes: &[Class]) -> Option<Vec<usize>> {
    let to = |other: &usize| *other != class && classes[class].table.compare(&classes[*other].table) == TableComparison::Rises;
    (group.classes.len() <= MOST_COMPARED).then(|| group.classes.clone().filter(to).collect())
}

/// What stands in the way of a guest that would go from table A to table B.
pub struct Way {
    /// the first place that fails
    pub first: TableComparison,
    /// that register in A's table and in B's
    pub values: [u32; 2],
    /// what they say, where they are a signature or a name
    words: Option<[String; 2]>,
    /// the features of A's that B's has not, all of them
    pub lacks: Vec<Bits>,
}

impl Way {
    pub fn of(a: &Table, b: &Table) -> Way {
        let first = a.compare(b);
        let values = match first {
            TableComparison::Differs { leaf, subleaf, register } => {
                let value = |table: &Table| table.find(leaf, subleaf).map_or(0, |row| words::registers(&row)[index(register)]);
                [value(a), value(b)]
            }
            _ => [0; 2],
        };
        Way { first, values, words: words(a, b, first), lacks: bits::lacked(a, b) }
    }

    /// The feature bits that are first in the way; none where it is something else.
    pub fn bits(&self) -> Option<Bits> {
        let TableComparison::Differs { leaf, subleaf, register } = self.first else { return None };
        let register = features::find(leaf, subleaf, index(register))?;
        let [a, b] = self.values;
        // hyperthreading must be equal: A may be the one without it
        let value = if a & !b != 0 { a & !b } else { a ^ b };
        Some(Bits { register, value })
    }

    /// What is first in the way, in a few words.
    pub fn short(&self) -> String {
        match (self.first, self.bits()) {
            (_, Some(bits)) => match bits.names()[..] {
                [] => register_name(bits.register.leaf, bits.register.subleaf, bits.register.register),
                [one] => one.to_string(),
                [one, ref more @ ..] => format!("{one} +{}", more.len()),
            },
            (TableComparison::Rises, _) => "yes".into(),
            (TableComparison::NoRow { leaf, subleaf }, _) => format!("no row {}", short_place(leaf, subleaf)),
            (TableComparison::Beyond { leaf, subleaf }, _) => format!("row {} more", short_place(leaf, subleaf)),
            (TableComparison::Differs { leaf: 0xD, subleaf: Some(0), register: Register::Ecx }, _) => "save area".into(),
            (TableComparison::Differs { leaf, subleaf, register }, _) => match &self.words {
                // one part of it is enough for a cell
                Some([_, there]) => there.split(", ").next().unwrap_or_default().into(),
                None => register_name(leaf, subleaf, index(register)),
            },
            _ => "states".into(),
        }
    }

    /// What is first in the way, with the leaf, the register and the bits or values.
    pub fn long(&self) -> String {
        let [a, b] = self.values;
        match (self.first, self.bits()) {
            (TableComparison::Rises, _) => "a guest may move".into(),
            (TableComparison::NoRow { leaf: 0xD, subleaf: Some(component) }, _) => {
                format!("no row D.{component:X}, the {} state", components::name(component).unwrap_or("unknown"))
            }
            (TableComparison::NoRow { leaf, subleaf }, _) => format!("no row {}", short_place(leaf, subleaf)),
            (TableComparison::Beyond { leaf, subleaf }, _) => format!("a row {} besides", short_place(leaf, subleaf)),
            (TableComparison::Differs { leaf, subleaf, register }, bits) => {
                let name = register_name(leaf, subleaf, index(register));
                match bits {
                    Some(bits) => format!("{name}: {}", numbered(&bits)),
                    None if (leaf, subleaf, index(register)) == (0xD, Some(0), ECX) => format!("{name}: the save area of {a} bytes is but {b}"),
                    None => match &self.words {
                        Some([here, there]) => format!("{name}: {here}, there {there}"),
                        None => format!("{name}: {a:08X}, there {b:08X}"),
                    },
                }
            }
            _ => "a state of the combined mask is missing".into(),
        }
    }
}

/// A signature or a processor's name that is first in the way: in A's table and in B's, where they differ.
fn words(a: &Table, b: &Table, first: TableComparison) -> Option<[String; 2]> {
    let TableComparison::Differs { leaf, subleaf, register } = first else { return None };
    if said::is_name(leaf) {
        return Some([a, b].map(processor));
    }
    let rows = [a.find(leaf, subleaf)?, b.find(leaf, subleaf)?];
    let told = matches!((leaf, index(register)), (0x1 | 0x8000_0001, EAX));
    told.then(|| said::apart(&rows, index(register)).try_into().ok()).flatten()
}

/// Bits by name and number: SHA (bit 29).
fn numbered(bits: &Bits) -> String {
    let told: Vec<String> = bits.each().map(|bit| format!("{} (bit {})", bit.name, bit.bit)).collect();
    if told.is_empty() { format!("bits {:08X}", bits.value) } else { told.join(", ") }
}

/// The place of a register in a result.
pub fn index(register: Register) -> usize {
    match register {
        Register::Eax => 0,
        Register::Ebx => 1,
        Register::Ecx => 2,
        Register::Edx => 3,
    }
}

/// Where the comparison of pages stops, in a few words.
pub fn by_pages(answer: &Comparison) -> String {
    match *answer {
        Comparison::NoEntry { leaf, subleaf } => format!("no entry {}", short_place(leaf, subleaf)),
        Comparison::Differs { leaf, subleaf, register } => register_name(leaf, subleaf, index(register)),
        ref other => other.to_string(),
    }
}
