//! `carry`: a running table under another edition of the AVX rule.

use crate::arguments::Arguments;
use crate::building::{self, Building};
use crate::command::Command;
use crate::failure::Failure;
use crate::features::{self, FeatureBit};
use crate::input::shown;
use crate::json::{self, array, object};
use crate::option::Opt;
use crate::print::bit_json;
use crate::reasons;
use crate::{output, processor, words};
use snp_cpuid::{Refusal, Table};

const FROM: Opt = Opt::decimal(&["--from"], "E", true, "edition of the AVX rule under which the table runs");

const TO: Opt = Opt::decimal(&["--to"], "E", true, "edition of the AVX rule that it is taken to");

pub const COMMAND: Command = Command {
    name: "carry",
    operands: &["PAGES"],
    options: &[&[FROM, TO], processor::STATES, &[output::file("IMAGE"), json::OPTION], building::OPTIONS_BUT_EDITION],
    summary: "take a running table from one edition of the AVX rule to another",
    about: "\
Builds the table of the pages under the edition that it runs under, takes it to another for a
processor with this XCR0 and XSS, and writes the result as bytes, in the form of 'image'. The bits
that the later edition hides go where the table has no YMM state, bit 2 of D.0.EAX: from 1 to 2 that
gives the table that edition 2 makes of the pages. Nothing else changes, so the save sizes of a guest
that runs stay what they were. Within one edition nothing changes. A note on standard error says
which bits went.
An edition E is decimal, X hexadecimal, with or without 0x. PAGES may be the running table's image:
then --from says which edition made it.
",
    status: "\
Exit status: 0 carried and written, 1 refused (building's refusals first, then 15 no such edition,
16 back to an earlier one, 13 and 14 as 'guest' has them), 2 bad usage or a file that cannot be
read or written.
",
    run,
};

fn run(arguments: &Arguments) -> Result<(), Failure> {
    let building = Building::by(&FROM, arguments, COMMAND.name)?;
    output::json_apart(arguments, COMMAND.name)?;
    let (from, to) = (building.edition(), building::edition(&TO, arguments, COMMAND.name)?.expect("it is required"));
    let (xcr0, xss) = processor::states(arguments, COMMAND.name)?;
    let file = &arguments.operands[0];
    let running = building.table(file)?;
    let carried = running.carry(from, to, xcr0, xss).map_err(|refusal| {
        let reason = match refusal {
            Refusal::UnknownEdition => reasons::of_edition(to),
            Refusal::EditionBack => reasons::of_edition_back(from),
            _ => reasons::of_guest(refusal, &running, xcr0, xss),
        };
        building.refused(shown(file), refusal, &reason)
    })?;
    let gone = gone(&running, &carried);
    if building.json() {
        let answer = object([("answer", "carried".into()), ("file", shown(file).into()), ("from", from.into()), ("to", to.into())]);
        let more = [("gone", array(gone.iter().map(bit_json))), ("image", output::file_json(arguments))];
        return output::write_and_print(arguments, &carried.image(), &answer.with(more).to_string());
    }
    output::write(arguments, &carried.image())?;
    let went: Vec<&str> = gone.iter().map(|bit| bit.name).collect();
    let went = if went.is_empty() { "no bit went".into() } else { format!("{} went", went.join(", ")) };
    output::note(&format!("from edition {from} to {to}: {went}"));
    Ok(())
}

/// The feature bits that a table has and another, with the same rows, has not.
fn gone(old: &Table, new: &Table) -> Vec<FeatureBit> {
    let mut bits = vec![];
    for (old, new) in old.rows().zip(new.rows()) {
        for (register, (was, is)) in words::registers(&old).into_iter().zip(words::registers(&new)).enumerate() {
            bits.extend(features::find(old.leaf, old.subleaf, register).into_iter().flat_map(|feature| feature.bits_of(was & !is)));
        }
    }
    bits
}
