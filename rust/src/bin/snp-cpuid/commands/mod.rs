//! The commands: one file each, with its name, operands, options, help and `run`, and its line in the list.

mod capture;
mod carry;
mod check;
mod compare;
mod completion;
mod diff;
mod entries;
mod explain;
mod fleet;
mod from_dump;
mod from_kvm;
mod guest;
mod image;
mod lookup;
mod man;
mod nearest;
mod pool;
mod set;
mod table;
mod to_dump;
mod to_kvm;
mod topologies;

use crate::command::Command;

/// The commands, in the order of the help.
#[rustfmt::skip]
pub const ALL: &[Command] = &[
    table::COMMAND,
    image::COMMAND,
    lookup::COMMAND,
    guest::COMMAND,
    check::COMMAND,
    carry::COMMAND,
    capture::COMMAND,
    from_dump::COMMAND,
    to_dump::COMMAND,
    from_kvm::COMMAND,
    to_kvm::COMMAND,
    set::COMMAND,
    compare::COMMAND,
    diff::COMMAND,
    pool::COMMAND,
    fleet::COMMAND,
    nearest::COMMAND,
    topologies::COMMAND,
    entries::COMMAND,
    explain::COMMAND,
    completion::COMMAND,
    man::COMMAND,
];
