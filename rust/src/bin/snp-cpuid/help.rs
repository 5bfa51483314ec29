//! The texts of `--help`, from what each command says of itself.

use crate::command::Command;
use crate::option::Opt;
use crate::wrap::{filled, wrapped};

const HEAD: &str = "\
Usage: snp-cpuid COMMAND [ARGUMENTS]

The CPUID table that an AMD SEV-SNP guest is given, from the CPUID pages of its server.

Commands:
";

/// The lines of the help that are no command's.
const OTHERS: [(&str, &str); 4] = [
    ("help COMMAND", "what 'snp-cpuid COMMAND --help' prints"),
    ("", "\nOptions:"),
    ("-h, --help", "print this help, or a command's"),
    ("-V, --version", "print the version"),
];

const TAIL: &str = "
PAGES is a file of CPUID pages as the SEV-SNP firmware lays them out, 4,096 bytes each, end to end,
or any other that gives such pages, told apart by what it holds: one page with leaf Dh on it, as
QEMU, OVMF and Linux have it; an image, as 'image', 'carry' and 'pool' write it, of which nobody
knows where its rows came from; a list for KVM; the text of 'cpuid -r', of InstLatx64 or of
libcpuid's 'cpuid_tool --save'; or the log of a Linux guest that was started with sev=debug.
'-' is standard input, and after -o standard output, but never a terminal. A file of more than 64
MiB is not read.

Lines are at most 100 columns, or as many as the variable COLUMNS says, or the terminal has.

Exit status: 0 where the pages are accepted or the answer is yes, 1 where they are refused or the
answer is no, 2 where the arguments are wrong or a file cannot be read, parsed or written, 3 where
what was asked for is not there. A file that is none of the above is not refused (status 2). A
failure is one line on standard error, after a refusal with notes that say why, and no file is
written or changed.
";

/// The option that every command has; the command line is read for it before any other.
pub const HELP: Opt = Opt::flag(&["-h", "--help"], "print this help");

/// The help of the program: a line for each command, with its operands and the file that it writes.
pub fn of_program(commands: &[Command]) -> String {
    let line = |command: &Command| {
        let files = command.options().filter(|option| option.value.is_output()).map(Opt::usage);
        listed(&synopsis(command, files), command.summary)
    };
    let other = |(name, words): &(&str, &str)| match *name {
        "" => format!("{words}\n"),
        name => wrapped(&format!("  {name:27}"), words),
    };
    let lines: String = commands.iter().map(line).chain(OTHERS.iter().map(other)).collect();
    format!("{}{lines}\n{}", filled(HEAD), filled(TAIL.trim_start()))
}

/// A line of the list of commands: the words stand behind the label, or below it where it is too long.
fn listed(label: &str, words: &str) -> String {
    if label.len() < 27 { wrapped(&format!("  {label:27}"), words) } else { format!("  {label}\n") + &wrapped(&" ".repeat(29), words) }
}

/// The help of a command.
pub fn of_command(command: &Command) -> String {
    let usage = wrapped("Usage: snp-cpuid ", &synopsis(command, command.options().map(Opt::usage)));
    let options: Vec<&Opt> = command.options().chain([&HELP]).collect();
    let width = options.iter().map(|option| option.spelled().len()).max().unwrap_or(0);
    let lines: String = options.iter().map(|option| wrapped(&format!("  {:width$}   ", option.spelled()), option.help)).collect();
    [usage.as_str(), &filled(command.about), &lines, &filled(command.status)].join("\n")
}

/// A command's name, its operands, and some of its options.
fn synopsis(command: &Command, options: impl Iterator<Item = String>) -> String {
    let words = [command.name].into_iter().chain(command.operands.iter().copied()).map(String::from);
    words.chain(options).collect::<Vec<_>>().join(" ")
}
