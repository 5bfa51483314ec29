//! `fleet`: any number of servers at a glance.

use crate::arguments::Arguments;
use crate::building::{self, Building};
use crate::command::Command;
use crate::failure::Failure;
use crate::fleet::since::{Before, Since};
use crate::fleet::{Fleet, data, page, text};
use crate::input::shown;
use crate::option::{Opt, Value};
use crate::{json, output, processor};
use std::ffi::OsStr;

const HTML: Opt = Opt {
    names: &["--html"],
    value: Value::Output("OUT"),
    required: false,
    help: "write the report as a page for a browser too: one file, which loads nothing",
};

const SINCE: Opt = Opt {
    names: &["--since"],
    value: Value::Input("OLD"),
    required: false,
    help: "tell what changed since a report that --json gave before; status 1 where a table did",
};

pub const COMMAND: Command = Command {
    name: "fleet",
    operands: &["PAGES.."],
    options: &[&[HTML, SINCE, processor::VIEW, json::OPTION], building::OPTIONS_BUT_LINE],
    summary: "tell which of any number of servers are alike, and where a guest may go",
    about: "\
Tells of any number of servers which are accepted, which give a guest the same table, and where a
guest may go. PAGES is a file of any kind that 'snp-cpuid --help' names, or a folder, whose files
and folders are read, but for hidden ones. What stands in a folder and is no server's is named, and
ends no report. The report has:

  classes    servers that give one table; a class is a letter and a number, A1
  groups     the letter: classes that differ in features only; no guest leaves its group
  moves      from a class to those whose table has every row of its own, at least its features, a
             save area no smaller and all else equal; elsewhere, what stands in the way
  pools      the greatest sets of classes for which 'pool' makes one table, and what each costs
  features   those that some classes have and some have not
  refused    servers without a table, by the refusal, and what it says about the place where the
             file was made; those whose processor has SEV-SNP first
  not read   damaged files, and what else stands in the folders

With --since the report ends in what changed since OLD, a report that --json gave before under the
same choices: servers that came and went, and those that give another table, by which bits.

What was captured or dumped inside a guest has the number of its processor and the sizes of its
XCR0 and XSS in the place of the table's. With --view they are left out: each table is taken as
processor 0 sees it, with all states on that the table allows, and the fingerprints are of that.

The order of moves is that of tables. The entries of pages promise less, before the other server is
built, as 'compare' tells; a note names the moves that they do not promise.
",
    status: "\
Exit status: 0 where every server is accepted, 1 where one is refused or its file is damaged; with
--since 0 where no server's table changed, else 1; 2 bad usage, a file that is named and cannot be
opened or is no server's, a report that cannot be read, or no server at all.
",
    run,
};

fn run(arguments: &Arguments) -> Result<(), Failure> {
    let building = Building::of(arguments, COMMAND.name)?;
    let to_output = arguments.value(HTML.name()).is_some_and(|file| file == "-");
    if to_output && building.json() {
        return Err(Failure::usage(COMMAND.name, "--html - and --json both go to standard output"));
    }
    let fleet = Fleet::of(&arguments.operands, building, arguments.has(&processor::VIEW))?;
    let old = arguments.value(SINCE.name()).map(|file| Ok((shown(file), Before::read(file, &fleet)?))).transpose()?;
    let since = old.as_ref().map(|(file, before)| (file, Since::of(&fleet, before)));
    let report: Box<dyn Iterator<Item = String>> = if building.json() {
        Box::new(data::of(&fleet, since.as_ref().map(|(file, since)| since.json(file))).text())
    } else {
        let changes = since.iter().flat_map(|(file, since)| ["\n".to_string()].into_iter().chain(since.text(file)));
        Box::new([text::of(&fleet)].into_iter().chain(changes))
    };
    match arguments.value(HTML.name()) {
        None => output::print_parts(report)?,
        Some(_) if to_output => output::print(page::of(&fleet))?,
        Some(file) => {
            output::not_one_of(file, fleet.servers.iter().map(|server| OsStr::new(server.file())))?;
            output::to_file_and_print(file, page::of(&fleet).as_bytes(), report)?
        }
    }
    let well = since.as_ref().map_or(fleet.accepted() == fleet.servers.len(), |(_, since)| !since.has_changes());
    if well { Ok(()) } else { Err(Failure::AnswerNo) }
}
