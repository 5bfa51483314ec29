//! The command `snp-cpuid`: CPUID pages of an SEV-SNP guest as a table in words, an image or a dump, and two servers compared.
//!
//! Every answer is the proved library's; what stands here reads arguments and files, and puts the answers into words.
//! A further command is a file in commands/ and its line in commands/mod.rs.

mod arguments;
mod arithmetic;
mod building;
mod caches;
mod command;
mod commands;
mod components;
mod differences;
mod edits;
mod failure;
mod fields;
mod fleet;
mod guest_size;
mod help;
mod input;
mod inputs;
mod json;
mod json_read;
mod machine;
mod manual;
mod masks;
mod meanings;
mod numbers;
mod option;
mod output;
mod pages;
mod parse;
mod print;
mod processor;
mod reasons;
mod said;
mod shells;
mod source;
mod standing;
mod suggest;
mod terminal;
mod topology;
mod view;
mod words;
mod wrap;

use command::Command;
use failure::Failure;
use snp_cpuid::features;
use std::ffi::{OsStr, OsString};
use std::process::ExitCode;

#[cfg(not(feature = "std"))]
compile_error!("the command needs the feature std: build the library alone with --lib");

const VERSION: &str = concat!("snp-cpuid ", env!("CARGO_PKG_VERSION"), "\n");

/// The command of a name.
fn command(name: &OsStr) -> Result<&'static Command, Failure> {
    let found = commands::ALL.iter().find(|command| name == command.name);
    found.ok_or_else(|| {
        let near = suggest::nearest(&name.to_string_lossy(), commands::ALL.iter().map(|command| command.name));
        let meant = near.map_or(String::new(), |near| format!(", did you mean '{near}'?"));
        Failure::Bad(format!("no command '{}'{meant} (see 'snp-cpuid --help')", input::shown(name)))
    })
}

/// Does what the command line asks for, the program's own name left out.
fn run(mut given: impl Iterator<Item = OsString>) -> Result<(), Failure> {
    let Some(first) = given.next() else {
        return Err(Failure::Bad("no command is given (see 'snp-cpuid --help')".into()));
    };
    match first.to_str() {
        Some("-h" | "--help") => output::print(help::of_program(commands::ALL)),
        Some("-V" | "--version") => output::print(VERSION),
        Some("help") => match given.next() {
            None => output::print(help::of_program(commands::ALL)),
            Some(name) => output::print(help::of_command(command(&name)?)),
        },
        _ => {
            let command = command(&first)?;
            match parse::parse(command, given)? {
                None => output::print(help::of_command(command)),
                Some(arguments) => command.run_on(&arguments),
            }
        }
    }
}

fn main() -> ExitCode {
    match run(std::env::args_os().skip(1)) {
        Ok(()) => ExitCode::SUCCESS,
        Err(failure) => {
            failure.lines().iter().for_each(|line| output::say(line));
            ExitCode::from(failure.status())
        }
    }
}
