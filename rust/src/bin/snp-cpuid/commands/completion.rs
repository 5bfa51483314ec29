//! `completion`: what a shell needs to complete the command line.

use super::ALL;
use crate::arguments::Arguments;
use crate::command::Command;
use crate::failure::Failure;
use crate::input::shown;
use crate::{output, shells};

pub const COMMAND: Command = Command {
    name: "completion",
    operands: &["bash|zsh|fish"],
    options: &[&[output::file_or_standard_output("FILE")]],
    summary: "print a completion script for a shell",
    about: "\
Prints a script by which the shell completes the names of commands, options and files after
snp-cpuid. 'make install' puts all three where the shells look for them. To try one in a running
bash: eval \"$(snp-cpuid completion bash)\".
",
    status: "\
Exit status: 0 printed, 2 bad usage or a file that cannot be written.
",
    run,
};

fn run(arguments: &Arguments) -> Result<(), Failure> {
    let shell = &arguments.operands[0];
    let wrong = || Failure::usage(COMMAND.name, &format!("there is no script for the shell '{}'", shown(shell)));
    let script = shell.to_str().and_then(shells::named).ok_or_else(wrong)?(ALL);
    output::write_or_print(arguments, script.as_bytes(), &script)
}
