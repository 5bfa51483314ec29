//! `man`: the manual page.

use super::ALL;
use crate::arguments::Arguments;
use crate::command::Command;
use crate::failure::Failure;
use crate::{manual, output};

pub const COMMAND: Command = Command {
    name: "man",
    operands: &[],
    options: &[&[output::file_or_standard_output("FILE")]],
    summary: "print the manual page, for 'man' to lay out",
    about: "\
Prints the manual page of snp-cpuid(1) in the mdoc language, made of the same texts as the help.
'make install' puts it where 'man snp-cpuid' finds it.
",
    status: "\
Exit status: 0 printed, 2 bad usage or a file that cannot be written.
",
    run,
};

fn run(arguments: &Arguments) -> Result<(), Failure> {
    let page = manual::page(ALL);
    output::write_or_print(arguments, page.as_bytes(), &page)
}
