//! `to-kvm`: the table as the list that KVM takes.

use crate::arguments::Arguments;
use crate::building::{self, Building};
use crate::command::Command;
use crate::failure::Failure;
use crate::output;

pub const COMMAND: Command = Command {
    name: "to-kvm",
    operands: &["PAGES"],
    options: &[&[output::file("LIST")], building::OPTIONS],
    summary: "write the table as the list that KVM takes",
    about: "\
Writes the table of the pages as struct kvm_cpuid2, which KVM_SET_CPUID2 takes: a count and a zero
word, then for each row function, index, flags, EAX, EBX, ECX, EDX and three zero words, each number
4 bytes little-endian. Flags are 1 where the row has a subleaf, else flags and index are 0. Rows
ascend by leaf, then by subleaf.
",
    status: "\
Exit status: 0 accepted and written, 1 refused, 2 bad usage or a file that cannot be read or
written.
",
    run,
};

fn run(arguments: &Arguments) -> Result<(), Failure> {
    output::write(arguments, &Building::of(arguments, COMMAND.name)?.kvm_list(&arguments.operands[0])?)
}
