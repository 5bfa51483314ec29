//! Rows as lines, and as JSON.

use crate::arguments::Arguments;
use crate::features::{FeatureBit, REGISTERS};
use crate::json::{Json, array, hex, object};
use crate::option::Opt;
use crate::words;
use crate::wrap::wrapped;
use snp_cpuid::{Origin, Row};

/// The option of a command that prints rows.
pub const ORIGINS: Opt = Opt::flag(&["--origins"], "say on each row's line where it came from: its page and entry, each from 0, or made here");

/// How rows are printed: with where each came from, or without.
#[derive(Clone, Copy)]
pub struct Form {
    origins: bool,
}

impl Form {
    /// As it was asked for.
    pub fn of(arguments: &Arguments) -> Form {
        Form { origins: arguments.has(&ORIGINS) }
    }

    /// The line over rows.
    pub fn heading(&self) -> &'static str {
        if self.origins { "leaf        EAX      EBX      ECX      EDX       origin\n" } else { "leaf        EAX      EBX      ECX      EDX\n" }
    }

    /// A row's line, and under it its words.
    pub fn row(&self, row: &Row) -> String {
        let values = words::registers(row).map(|value| format!("{value:08X}")).join(" ");
        let origin = if self.origins { format!("  {}", row.origin) } else { String::new() };
        let mut text = format!("{:12}{values}{origin}\n", place(row.leaf, row.subleaf));
        for (register, words) in words::of_row(row) {
            text += &wrapped(&format!("    {}  ", REGISTERS[register]), &words);
        }
        text
    }
}

/// A leaf and subleaf as rows have them.
pub fn place(leaf: u32, subleaf: Option<u32>) -> String {
    subleaf.map_or(format!("{leaf:08X}"), |subleaf| format!("{leaf:08X}.{subleaf:X}"))
}

/// A leaf and subleaf as members of an object.
pub fn place_json(leaf: u32, subleaf: Option<u32>) -> [(&'static str, Json); 2] {
    [("leaf", hex(leaf)), ("subleaf", subleaf.into())]
}

/// A feature bit as an object.
pub fn bit_json(bit: &FeatureBit) -> Json {
    let named = [("register", REGISTERS[bit.register].into()), ("bit", bit.bit.into()), ("name", bit.name.into())];
    object(place_json(bit.leaf, bit.subleaf)).with(named)
}

/// Four registers as members of an object.
pub fn registers_json(registers: [u32; 4]) -> [(&'static str, Json); 4] {
    let [eax, ebx, ecx, edx] = registers.map(hex);
    [("eax", eax), ("ebx", ebx), ("ecx", ecx), ("edx", edx)]
}

/// Where a row came from; page and entry are null where no entry is known.
pub fn origin_json(origin: Origin) -> [(&'static str, Json); 3] {
    let (kind, page, entry) = match origin {
        Origin::MadeHere => ("made here", None, None),
        Origin::Entry { page, entry } => ("entry", Some(page), Some(entry)),
        _ => ("unknown", None, None),
    };
    [("origin", kind.into()), ("page", page.into()), ("entry", entry.into())]
}

/// A row as an object: its place, registers, origin, and the names of its feature bits.
pub fn row_json(row: &Row) -> Json {
    object(place_json(row.leaf, row.subleaf))
        .with(registers_json(words::registers(row)))
        .with(origin_json(row.origin))
        .with([("features", array(words::features(row)))])
}
