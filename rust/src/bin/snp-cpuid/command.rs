//! What a command is: what it takes, what its help says, and what runs it.

use crate::arguments::Arguments;
use crate::failure::Failure;
use crate::option::Opt;
use crate::output;
use std::ffi::{OsStr, OsString};

/// What the name of an operand ends in that may be given more than once.
pub const MORE: &str = "..";

/// One command. Its usage line, its option lines and its line in the main help are made from these.
pub struct Command {
    /// its name
    pub name: &'static str,
    /// its operands, each by the name that the help gives it; the last may be given more than once where its name ends in two dots
    pub operands: &'static [&'static str],
    /// its options, by groups: its own, and those that it shares with others
    pub options: &'static [&'static [Opt]],
    /// what it does, in the main help
    pub summary: &'static str,
    /// what it does, in its own help
    pub about: &'static str,
    /// its exit status, in its own help
    pub status: &'static str,
    /// runs it
    pub run: fn(&Arguments) -> Result<(), Failure>,
}

impl Command {
    /// Whether the last operand may be given more than once.
    pub fn takes_more(&self) -> bool {
        self.operands.last().is_some_and(|name| name.ends_with(MORE))
    }

    /// All its options, in the order of the help.
    pub fn options(&self) -> impl Iterator<Item = &'static Opt> {
        self.options.iter().copied().flatten()
    }

    /// What it was given to read: its operands, and the files of options.
    pub fn inputs<'a>(&self, arguments: &'a Arguments) -> Vec<&'a OsStr> {
        let options = self.options().filter(|option| option.value.is_input()).filter_map(|option| arguments.value(option.name()));
        arguments.operands.iter().map(OsString::as_os_str).chain(options).collect()
    }

    /// The files that it was given to write.
    pub fn outputs<'a>(&self, arguments: &'a Arguments) -> Vec<&'a OsStr> {
        self.options().filter(|option| option.value.is_output()).filter_map(|option| arguments.value(option.name())).collect()
    }

    /// Runs it, where standard input is asked for once, and no output is an input.
    pub fn run_on(&self, arguments: &Arguments) -> Result<(), Failure> {
        let inputs = self.inputs(arguments);
        if inputs.iter().filter(|file| **file == "-").count() > 1 {
            return Err(Failure::usage(self.name, "standard input can be one file only"));
        }
        let mut outputs = self.outputs(arguments).into_iter().filter(|file| *file != "-");
        outputs.try_for_each(|output| output::not_one_of(output, inputs.iter().copied()))?;
        (self.run)(arguments)
    }
}
