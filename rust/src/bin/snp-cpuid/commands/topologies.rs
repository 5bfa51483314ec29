//! `topologies`: every topology that building accepts up to size seven.

use crate::arguments::Arguments;
use crate::command::Command;
use crate::failure::Failure;
use crate::json::{self, Json, array, object};
use crate::output;
use snp_cpuid::{TOPOLOGIES_BYTES, Topology, topologies, write_topologies};

pub const COMMAND: Command = Command {
    name: "topologies",
    operands: &[],
    options: &[&[output::bytes_to_file("FILE"), json::OPTION]],
    summary: "list every topology that is accepted, up to size seven",
    about: "\
Lists every topology that is accepted with s from 0 to 7, by the five numbers that pages tell it by:
s (80000008h.ECX bits 12-15), nc (its bits 0-7), lps (1.EBX bits 16-23), mt (1.EDX bit 28) and t
(8000001Eh.EBX bits 8-15), all decimal. They ascend by s, nc, lps, mt and t in turn. Pages with one
of them are refused by none of 6, 7 and 8; no other pages with such an s are accepted. With -o the
list is written as bytes, five for each.
",
    status: "\
Exit status: 0 listed, 2 bad usage or a file that cannot be written.
",
    run,
};

fn run(arguments: &Arguments) -> Result<(), Failure> {
    let mut bytes = [0; TOPOLOGIES_BYTES];
    write_topologies(&mut bytes).expect("there is room for the list");
    output::json_apart(arguments, COMMAND.name)?;
    let list = topologies();
    if json::asked(arguments) {
        let answer = object([("answer", "listed".into()), ("topologies", array(list.iter().map(topology)))]).to_string();
        return if output::is_given(arguments) { output::write_and_print(arguments, &bytes, &answer) } else { output::print(answer) };
    }
    output::write_or_print(arguments, &bytes, &lines(&list))
}

fn topology(numbers: &Topology) -> Json {
    let Topology { s, nc, lps, mt, t } = *numbers;
    let [s, nc, lps, mt, t] = [s, nc, lps, mt.into(), t].map(|number| Json::from(u32::from(number)));
    object([("s", s), ("nc", nc), ("lps", lps), ("mt", mt), ("t", t)])
}

/// A heading, and a line for each.
fn lines(list: &[Topology]) -> String {
    let line = |i: &Topology| format!("{} {:3} {:3}  {} {}\n", i.s, i.nc, i.lps, u8::from(i.mt), i.t);
    "s  nc lps mt t\n".to_string() + &list.iter().map(line).collect::<String>()
}
