//! `capture`: pages of the machine that the command runs on.

use super::from_kvm::pages_of;
use crate::arguments::Arguments;
use crate::building::Building;
use crate::command::Command;
use crate::failure::Failure;
use crate::input::reason;
use crate::machine;
use crate::masks::required;
use crate::option::Opt;
use crate::output;
use crate::pages::{Entry, two_pages};
use crate::topology::own_bits;
use crate::words::{counted, text};
use std::ffi::OsStr;
use std::io;

const KVM: Opt = Opt::flag(&["--kvm"], "ask /dev/kvm what it supports, instead of the processor");

pub const COMMAND: Command = Command {
    name: "capture",
    operands: &[],
    options: &[&[output::file("PAGES"), KVM]],
    summary: "make pages of the machine that this runs on",
    about: "\
Makes two CPUID pages of what this machine reports, in the form of 'from-dump': leaf Dh on page 1
and all other leaves that a table reads on page 0. It asks by the CPUID instruction, on the first
processor that it may run on. Fields that tell processors apart, which are 1.EBX bits 24-31, EDX of
leaf B, and 8000001E EAX, EBX bits 0-7 and ECX bits 0-7, are set to 0, as on processor 0, so that
one machine gives the same pages each time; a note says which processor it was, and its XCR0. In a
guest that is what the guest is told; on a host it is what the processor reports, and a guest's own
pages, which the host makes, may say otherwise. A leaf above the highest that the machine reports is
left out, and so is a state of Dh that it does not have.

With --kvm it asks KVM what it can give a guest (KVM_GET_SUPPORTED_CPUID), as 'from-kvm' reads it.
",
    status: "\
Exit status: 0 written, 1 KVM's list is refused, 2 bad usage, a machine that cannot be asked, or a
file that cannot be written.
",
    run,
};

fn run(arguments: &Arguments) -> Result<(), Failure> {
    let (pages, note) = if arguments.has(&KVM) {
        let list = machine::supported().map_err(|error| Failure::Bad(format!("{}: {}", machine::KVM, reason(&error))))?;
        let (pages, note) = pages_of(&list, OsStr::new(machine::KVM), Building::of(arguments, COMMAND.name)?)?;
        (pages.to_vec(), format!("{}: {note}", machine::KVM))
    } else {
        let (rows, note) = asked().map_err(|error| Failure::Bad(format!("the processor cannot be asked: {}", reason(&error))))?;
        (two_pages(&rows).map_err(Failure::Bad)?, note)
    };
    output::write(arguments, &pages)?;
    output::note(&note);
    Ok(())
}

/// The rows that a table reads, as one processor gives them, and what is to be said of them.
fn asked() -> io::Result<(Vec<Entry>, String)> {
    let processor = *machine::allowed()?.first().ok_or(io::ErrorKind::NotFound)?;
    machine::stay_on(processor)?;
    let [_, b, c, d] = machine::cpuid(0, 0);
    let last = |leaf: u32| machine::cpuid(leaf & 0x8000_0000, 0)[0];
    let there = required().filter(|(leaf, _)| *leaf <= last(*leaf)).map(|(leaf, subleaf)| (leaf, subleaf.unwrap_or(0)));
    let states = (2..64).map(|state| (0xD, state)).filter(|(leaf, _)| *leaf <= last(*leaf));
    let entry = |(leaf, subleaf)| Entry { leaf, subleaf, registers: as_on_processor_0(leaf, machine::cpuid(leaf, subleaf)) };
    let states = states.map(entry).filter(|entry| entry.registers != [0; 4]);
    let rows: Vec<Entry> = there.map(entry).chain(states).collect();
    let (many, xcr0) = (counted(rows.len() as u32, "row"), machine::xcr0());
    let note = format!("{many} of processor {processor}, {}, XCR0 {xcr0:X}, XSS not known; its numbers are set to 0", text(&[b, d, c]));
    Ok((rows, note))
}

/// The registers of a row without what tells one processor from another.
fn as_on_processor_0(leaf: u32, registers: [u32; 4]) -> [u32; 4] {
    std::array::from_fn(|register| registers[register] & !own_bits(leaf, register))
}
