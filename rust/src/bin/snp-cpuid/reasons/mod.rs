//! Why something was refused: the numbers that the refusal rests on, and what change would be accepted. The refusal itself is the library's.

mod guest;
mod lists;
mod pages;
mod pool;

use crate::features::REGISTERS;
use crate::json::{self, Json, array, object};
use crate::standing::{Standing, start};

pub use guest::{of_edition, of_edition_back, of_guest};
pub use lists::of_list;
pub use pages::of_pages;
pub use pool::{of_pool, of_pool_size};

/// The numbers behind a refusal, and what would be accepted.
#[derive(Default)]
pub struct Reason {
    /// the numbers, in words
    pub numbers: String,
    /// what is wanted, in words: without it there is no other answer, and with it another refusal may come
    pub needs: String,
    /// the change with which the library accepts the pages, in words; empty where none was found
    pub change: String,
    /// the registers of first entries that are to be changed
    pub registers: Vec<Register>,
    /// the rows that the pages have no entry for
    pub missing: Vec<(u32, Option<u32>)>,
}

/// A register with the value that would be accepted.
pub struct Register {
    pub leaf: u32,
    pub subleaf: Option<u32>,
    pub register: usize,
    pub value: u32,
}

impl Register {
    fn place(&self) -> (u32, Option<u32>, usize) {
        (self.leaf, self.subleaf, self.register)
    }

    /// Writes its value into the first entry of its row.
    fn put(&self, standing: &Standing, pages: &mut [u8]) {
        if let Some(place) = standing.first(self.leaf, self.subleaf) {
            let at = place.page * snp_cpuid::PAGE_BYTES + start(place.entry) + 24 + 4 * self.register;
            pages[at..at + 4].copy_from_slice(&self.value.to_le_bytes());
        }
    }
}

impl Reason {
    fn new(numbers: String, needs: impl Into<String>) -> Reason {
        Reason { numbers, needs: needs.into(), ..Reason::default() }
    }

    /// One that registers of first entries mend.
    fn of_registers(numbers: String, registers: Vec<Register>) -> Reason {
        Reason { numbers, registers, ..Reason::default() }
    }

    /// The notes after a refusal's line.
    pub fn notes(&self) -> Vec<String> {
        let otherwise = if self.needs.is_empty() { "" } else { "or " };
        let accepted = format!("{otherwise}accepted with ");
        let notes = [("", &self.numbers), ("needs ", &self.needs), (accepted.as_str(), &self.change)];
        notes.into_iter().filter(|(_, words)| !words.is_empty()).map(|(start, words)| format!("{start}{words}")).collect()
    }

    /// Its members of a refusal's object.
    pub fn json(&self) -> Vec<(&'static str, Json)> {
        let register = |r: &Register| {
            let name = REGISTERS[r.register];
            object([("leaf", json::hex(r.leaf)), ("subleaf", r.subleaf.into()), ("register", name.into()), ("value", json::hex(r.value))])
        };
        let missing = |(leaf, subleaf): &(u32, Option<u32>)| object([("leaf", json::hex(*leaf)), ("subleaf", (*subleaf).into())]);
        vec![
            ("numbers", self.numbers.as_str().into()),
            ("needs", self.needs.as_str().into()),
            ("change", self.change.as_str().into()),
            ("registers", array(self.registers.iter().map(register))),
            ("missing", array(self.missing.iter().map(missing))),
        ]
    }
}

/// The first of a list that may be long, and how many more there are.
fn few(list: Vec<String>) -> String {
    const MOST: usize = 8;
    let more = if list.len() > MOST { format!("; and {} more", list.len() - MOST) } else { String::new() };
    list.iter().take(MOST).map(String::as_str).collect::<Vec<_>>().join("; ") + &more
}

/// Bytes in hexadecimal, spaces between.
pub fn hex_bytes(bytes: &[u8]) -> String {
    bytes.iter().map(|byte| format!("{byte:02X}")).collect::<Vec<_>>().join(" ")
}

/// A number of things: 1 page, 2 pages.
fn counted(number: usize, thing: &str) -> String {
    crate::words::counted(number as u32, thing)
}
