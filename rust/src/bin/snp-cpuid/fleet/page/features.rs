//! The part of the page on features: those that differ by class, and all of them by register.

use super::super::Fleet;
use super::super::bits::{self, Bits, register_name};
use super::super::differing::{self, Feature};
use super::html::{column, details, mark, table};
use super::{link, links};
use crate::features::{FEATURES, FeatureBit, FeatureRegister};
use snp_cpuid::Table;

/// So many classes stand side by side; of more, those without the feature are listed.
const ACROSS: usize = 16;

/// Bits by name, with the register and the numbers.
pub fn named(bits: &Bits) -> String {
    let f = bits.register;
    let register = register_name(f.leaf, f.subleaf, f.register);
    let one = |bit: FeatureBit| format!("<span class=\"o\"><b>{}</b> <small>{register} bit {}</small></span>", bit.name, bit.bit);
    bits.each().map(one).collect::<Vec<_>>().join(" ")
}

pub fn of(fleet: &Fleet) -> String {
    let rows = differing::features(&fleet.classes);
    if rows.is_empty() {
        return String::new();
    }
    let few = fleet.classes.len() <= ACROSS;
    let legend = format!("<p class=\"leg\"><span>{} has it</span> <span>{} has it not</span></p>\n", mark("has", ""), mark("not", ""));
    let bits: usize = rows.iter().map(|row| row.bits.each().count()).sum();
    let words = format!(
        "<p>Bits of one register that the same classes have share a row. {bits} bits differ; every other one is the same in all classes.</p>\n"
    );
    let classes = if few { fleet.classes.iter().map(|class| column(&class.name)).collect() } else { column("Classes without it") };
    let head = "<th scope=\"col\" class=\"rg\">Leaf, register</th><th scope=\"col\" class=\"fh\">Feature, bit</th>".to_string() + &classes;
    let body: String = rows.iter().map(|row| feature(fleet, row, few)).collect();
    let table = table(
        "c-features",
        if few { "x ft" } else { "f" },
        "Feature bits that differ, in the order of leaf, register and bit",
        &head,
        &format!("<tbody>{body}</tbody>"),
    );
    words + if few { &legend } else { "" } + &table + &every(fleet)
}

fn feature(fleet: &Fleet, row: &Feature, few: bool) -> String {
    let f = row.bits.register;
    let register = register_name(f.leaf, f.subleaf, f.register);
    let names: String = row.bits.each().map(|bit| format!("<span class=\"o\"><b>{}</b> <small>{}</small></span> ", bit.name, bit.bit)).collect();
    let cells: String = if few {
        let cell = |(class, has): (usize, &bool)| {
            let data = format!("data-class=\"{}\"", fleet.classes[class].name);
            if *has {
                format!("<td {data} data-has=\"1\">{}</td>", mark("has", "has it"))
            } else {
                format!("<td class=\"ne\" {data} data-has=\"0\">{}</td>", mark("not", "has it not"))
            }
        };
        row.has.iter().enumerate().map(cell).collect()
    } else {
        let without: Vec<usize> = (0..row.has.len()).filter(|class| !row.has[*class]).collect();
        format!("<td>{}</td>", links(fleet, &without))
    };
    let bits = row.bits.names().join(" ");
    format!(
        "<tr data-bits=\"{bits}\"><th scope=\"row\" class=\"rg\">{register}</th>\
         <td class=\"fh\"><small class=\"ph\">{register}</small> {names}</td>{cells}</tr>\n"
    )
}

/// Every feature by register: what all classes have, what some have, and what none has.
fn every(fleet: &Fleet) -> String {
    let tables: Vec<&Table> = fleet.classes.iter().map(|class| &class.table).collect();
    let row = |register: &'static FeatureRegister| {
        let values = || tables.iter().map(|table| bits::value(table, register));
        let (all, some) = (values().fold(u32::MAX, |all, value| all & value), values().fold(0, |some, value| some | value));
        let names = |value: u32| register.names(value.into()).join(" ");
        let [all, differ, none] = [all, some & !all, !some].map(names);
        let differ = if differ.is_empty() { String::new() } else { format!("{} <b>{differ}</b>", mark("half", "")) };
        let name = register_name(register.leaf, register.subleaf, register.register);
        format!("<tr><th scope=\"row\" class=\"rg\">{name}</th><td>{all}</td><td>{differ}</td><td class=\"d\">{none}</td></tr>\n")
    };
    let head = ["Register", "All classes have", "Some have", "None has"].map(column).concat();
    let body: String = FEATURES.iter().map(row).collect();
    let table = table("c-every", "f ev", "Every feature bit, by register", &head, &format!("<tbody>{body}</tbody>"));
    details("Every feature, with those that differ marked", &table)
}

/// The head cells of classes.
pub fn class_columns(fleet: &Fleet, classes: &[usize]) -> String {
    classes.iter().map(|class| column(&link(fleet, *class))).collect()
}
