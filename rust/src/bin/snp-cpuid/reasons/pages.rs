//! Why building refused pages, and a change with which it accepts them: 1 to 8 and 17.

use super::{Reason, Register, counted, few, hex_bytes};
use crate::components;
use crate::features::{EAX, EBX, ECX, REGISTERS};
use crate::masks::required;
use crate::pages::PAGE_ENTRIES;
use crate::print::place as row_name;
use crate::source::image;
use crate::standing::{Place, Standing, start};
use crate::topology::{self, Numbers};
use snp_cpuid::{Options, Refusal, TopologyError};

/// Why building refused pages: 1 to 8 and 17. Nothing where the refusal is not the pages'.
pub fn of_pages(refusal: Refusal, pages: &[u8]) -> Reason {
    match refusal {
        Refusal::PagesLength if image(pages).is_some() => Reason::new("it is the image of a table".into(), "the pages that it was made of"),
        Refusal::PagesLength => length(pages.len()),
        Refusal::ReservedBytes { .. } => tried(reserved(&Standing::of(pages)), &without_reserved(pages), Some("zeros in those bytes")),
        _ => tried(of_entries(refusal, &Standing::of(pages)), pages, None),
    }
}

/// Why building refused these entries.
fn of_entries(refusal: Refusal, standing: &Standing) -> Reason {
    match refusal {
        Refusal::PageCount => count(standing),
        Refusal::MissingRequiredResult(..) => missing(standing),
        Refusal::InvlpgbUnavailable => invlpgb(standing),
        Refusal::SaveAreaOverflow => overflow(standing),
        Refusal::TopologyInconsistent(why) => topology(why, standing),
        Refusal::NothingDecides => missing(standing),
        _ => Reason::default(),
    }
}

/// Makes the change that a reason names in a copy of the pages and asks the library again, and so on with what the next refusal names, until the
/// pages are accepted or there is nothing to change. `first` is what was changed already, in words.
fn tried(mut reason: Reason, pages: &[u8], first: Option<&str>) -> Reason {
    let (mut pages, mut done, mut next) = (pages.to_vec(), vec![], std::mem::take(&mut reason.registers));
    if next.is_empty() && first.is_none() {
        return reason;
    }
    // at most four refusals can follow one another: 3 for a state, 5, one of 6 and 7, 4
    let answer = (0..8).find_map(|_| {
        let standing = Standing::of(&pages);
        for register in next.drain(..) {
            register.put(&standing, &mut pages);
            done.retain(|old: &Register| old.place() != register.place());
            done.push(register);
        }
        let refusal = snp_cpuid::build(&pages, Options::new()).err();
        next = refusal.map_or(vec![], |refusal| of_entries(refusal, &Standing::of(&pages)).registers);
        next.is_empty().then_some(refusal)
    });
    let told = changed(first, &done, &Standing::of(&pages));
    match answer.flatten() {
        None => reason.change = told,
        Some(refusal) => reason.needs = format!("{told}; then comes refusal {}: {refusal}", refusal.number()),
    }
    reason.registers = done;
    reason
}

/// A change in words, with what its figures mean.
fn changed(first: Option<&str>, registers: &[Register], after: &Standing) -> String {
    let register = |r: &Register| match (r.leaf, r.register) {
        (0x8000_0008, EBX) => format!("{}, which only a server that has INVLPGB may say", value_told(r)),
        _ => value_told(r),
    };
    let text = first.map(String::from).into_iter().chain(registers.iter().map(register)).collect::<Vec<_>>().join(" and ");
    let text = text.replace("may say and", "may say, and");
    match registers.iter().any(|r| topology::is_of(r.leaf, r.register)) {
        true => format!("{text} ({})", Numbers::of(|leaf| after.masked(leaf, None)).told()),
        false => text,
    }
}

/// The pages with zeros in the reserved bytes of all entries.
fn without_reserved(pages: &[u8]) -> Vec<u8> {
    let mut copy = pages.to_vec();
    for page in copy.chunks_exact_mut(snp_cpuid::PAGE_BYTES) {
        (0..PAGE_ENTRIES).for_each(|entry| page[start(entry) + 40..start(entry) + 48].fill(0));
    }
    copy
}

fn length(bytes: usize) -> Reason {
    let over = bytes % snp_cpuid::PAGE_BYTES;
    let change = "whole pages of 4,096 bytes; 'from-kvm' and 'from-dump' make pages of a list and of a dump";
    match bytes {
        0 => Reason::new("it has no bytes".into(), change),
        _ => Reason::new(format!("it has {bytes} bytes: {} of 4,096 and {over} over", counted(bytes / snp_cpuid::PAGE_BYTES, "page")), change),
    }
}

fn count(standing: &Standing) -> Reason {
    let wrong = standing.counts.iter().enumerate().filter(|(_, count)| **count > 64);
    let told = wrong.map(|(page, count)| format!("page {page} counts {count}"));
    Reason::new(few(told.collect()), "a count of at most 64 in the first four bytes of each page")
}

fn reserved(standing: &Standing) -> Reason {
    let unclean: Vec<&Place> = standing.places.iter().filter(|place| place.below_count && place.reserved != [0; 8]).collect();
    let told = |place: &&Place| format!("{} (leaf {}) has {}", place.name(), row_name(place.leaf, None), hex_bytes(&place.reserved));
    let whose = if unclean.len() == 1 { "its" } else { "their" };
    Reason::of_registers(format!("{} in {whose} last eight bytes", few(unclean.iter().map(told).collect())), vec![])
}

/// All rows without an entry, not only the first; entries for them that do not count.
fn missing(standing: &Standing) -> Reason {
    let always: Vec<_> = required().filter(|(leaf, subleaf)| standing.first(*leaf, *subleaf).is_none()).collect();
    // without D.0 and D.1 nobody knows which states are wanted
    let wanted = States::of(standing);
    let known = !always.iter().any(|(leaf, subleaf)| *leaf == 0xD && subleaf.is_some_and(|k| k < 2));
    let states = wanted.needed().filter(|k| known && standing.first(0xD, Some(*k)).is_none());
    let missing: Vec<_> = always.iter().copied().chain(states.map(|k| (0xD, Some(k)))).collect();
    let names: Vec<String> = missing.iter().map(|(leaf, subleaf)| row_name(*leaf, *subleaf)).collect();
    let mut numbers = format!("no entry for {}", names.join(", "));
    if missing.len() > always.len() {
        numbers += &format!("; D.0.EAX {:08X} and XSS {:08X} ask for the states {}", wanted.xfem, wanted.xss, wanted.told());
    }
    let idle = standing.places.iter().filter(|place| !place.counts() && missing.contains(&(place.leaf, place.kept().and_then(|kept| kept.subleaf))));
    let idle = idle.map(|place| {
        let why = if place.below_count { "leaf Dh counts on page 1 alone" } else { "it is above its page's count" };
        format!("{} has {}, but {why}", place.name(), row_name(place.leaf, Some(place.subleaf)))
    });
    let numbers = few([numbers].into_iter().chain(idle).collect());
    let which = if missing.len() == 1 { "it" } else { "each of them" };
    let page = if missing.iter().any(|(leaf, _)| *leaf == 0xD) { ", of leaf Dh on page 1" } else { "" };
    let mut reason = Reason::new(numbers, format!("an entry for {which} below its page's count{page}"));
    if always.is_empty() {
        let without = missing.iter().filter_map(|(_, subleaf)| *subleaf).fold(0, |bits, k| bits | 1 << k);
        reason.registers = wanted.without(without, standing);
    }
    reason.missing = missing;
    reason
}

/// The states of D.0 and D.1, by document 01, "Corners of mod.rs".
struct States {
    xfem: u32,
    xss: u32,
}

impl States {
    fn of(standing: &Standing) -> States {
        let [xfem, ..] = standing.masked(0xD, Some(0));
        let [features, _, xss, _] = standing.masked(0xD, Some(1));
        States { xfem: xfem | 3, xss: if features & 0b1010 == 0b1010 { xss } else { 0 } }
    }

    /// The subleaves that they need.
    fn needed(&self) -> impl Iterator<Item = u32> + use<> {
        let mask = self.xfem | self.xss;
        (2..32).filter(move |k| mask >> k & 1 == 1)
    }

    fn told(&self) -> String {
        self.needed().map(|k| format!("{} (D.{k:X})", components::name(k).unwrap_or("unknown"))).collect::<Vec<_>>().join(", ")
    }

    /// D.0.EAX and D.1.ECX, where they have one of these bits, without them.
    fn without(&self, bits: u32, standing: &Standing) -> Vec<Register> {
        let at = [(0, EAX, self.xfem), (1, ECX, self.xss)];
        let have = at.into_iter().filter(|(_, _, states)| states & bits != 0);
        let register = |(subleaf, register, _): (u32, usize, u32)| {
            let old = standing.first(0xD, Some(subleaf))?.registers[register];
            Some(Register { leaf: 0xD, subleaf: Some(subleaf), register, value: old & !bits })
        };
        have.filter_map(register).collect()
    }
}

/// A register as messages name it, with where it stands: "80000008.EBX is 01000000 (page 0 entry 12)".
fn standing_at(standing: &Standing, leaf: u32, subleaf: Option<u32>, register: usize) -> String {
    let name = format!("{}.{}", row_name(leaf, subleaf), REGISTERS[register]);
    standing.first(leaf, subleaf).map_or(name.clone(), |place| format!("{name} is {:08X} ({})", place.registers[register], place.name()))
}

fn value_told(r: &Register) -> String {
    format!("{}.{} at {:08X}", row_name(r.leaf, r.subleaf), REGISTERS[r.register], r.value)
}

fn invlpgb(standing: &Standing) -> Reason {
    let leaf = 0x8000_0008;
    let old = standing.first(leaf, None).map_or(0, |place| place.registers[EBX]);
    let register = Register { leaf, subleaf: None, register: EBX, value: old | 8 };
    Reason::of_registers(format!("{}: its bit 3 is clear", standing_at(standing, leaf, None, EBX)), vec![register])
}

fn overflow(standing: &Standing) -> Reason {
    let states = States::of(standing);
    let (mut numbers, mut registers) = (vec![], vec![]);
    for k in (2..32).filter(|k| states.xfem >> k & 1 == 1) {
        let Some(place) = standing.first(0xD, Some(k)) else { continue };
        let [size, offset, ..] = place.registers;
        let sum = u64::from(size) + u64::from(offset);
        if sum > u64::from(u32::MAX) {
            numbers.push(format!("D.{k:X} ({}): EAX {size:08X} + EBX {offset:08X} = {sum:X}, over FFFFFFFF", place.name()));
            registers.push(Register { leaf: 0xD, subleaf: Some(k), register: EAX, value: u32::MAX - offset });
        }
    }
    Reason::of_registers(numbers.join("; "), registers)
}

/// The five numbers of the topology in the masked first entries, and the nearest that are accepted.
fn topology(why: TopologyError, standing: &Standing) -> Reason {
    let numbers = Numbers::of(|leaf| standing.masked(leaf, None));
    let registers: Vec<Register> = numbers
        .accepted()
        .registers(|leaf| standing.first(leaf, None).map_or([0; 4], |place| place.registers))
        .into_iter()
        .map(|(leaf, register, value)| Register { leaf, subleaf: None, register, value })
        .filter(|r| standing.first(r.leaf, None).is_some_and(|place| place.registers[r.register] != r.value))
        .collect();
    let told: Vec<String> = topology::read_by(why, numbers).iter().map(|(leaf, register)| standing_at(standing, *leaf, None, *register)).collect();
    Reason::of_registers(format!("{}: {}", topology::why(why, numbers), told.join(", ")), registers)
}
