//! `explain`: a refusal's line, or its number, in words.

use crate::arguments::Arguments;
use crate::building::{refusal_json, told};
use crate::command::Command;
use crate::failure::Failure;
use crate::input::{read, shown};
use crate::json::{self, object};
use crate::meanings::meaning;
use crate::numbers::decimal;
use crate::output;
use crate::reasons::Reason;
use crate::wrap::wrapped;
use snp_cpuid::Refusal;

pub const COMMAND: Command = Command {
    name: "explain",
    operands: &["LINE"],
    options: &[&[json::OPTION]],
    summary: "say what a refusal's line, or its number, means",
    about: "\
Puts a refusal's line, as --line of the other commands prints it, into words, and says what its
number means in general: when it is given, and what to do. A number alone, as in 'explain 7', gives
the general meaning. The newline that ends a line is left out of LINE. '-' reads the same from
standard input, newline included.
",
    status: "\
Exit status: 0 where it is a refusal's line or number, 1 no such line, 2 bad usage.
",
    run,
};

fn run(arguments: &Arguments) -> Result<(), Failure> {
    let operand = &arguments.operands[0];
    let line = if operand == "-" { read(operand)? } else { [operand.as_encoded_bytes(), b"\n"].concat() };
    let refusal = Refusal::from_line(&line);
    let number = refusal.as_ref().map(Refusal::number).ok().or_else(|| number(&line));
    let Some((number, meaning)) = number.and_then(|number| Some((number, meaning(number)?))) else {
        return Err(Failure::No { line: format!("{}: no such line", shown(operand)), notes: vec![] });
    };
    if json::asked(arguments) {
        let refusal = refusal.ok().map(|refusal| refusal_json(refusal, &Reason::default()));
        let answer = object([("answer", "explained".into()), ("number", number.into()), ("meaning", meaning.into()), ("refusal", refusal.into())]);
        return output::print(answer.to_string());
    }
    let first = refusal.map_or(format!("refusal {number}\n"), |refusal| told(refusal) + "\n");
    output::print(format!("{first}\n{}", wrapped("", meaning)))
}

/// A number alone and a newline: no sign, no leading zero.
fn number(line: &[u8]) -> Option<u32> {
    std::str::from_utf8(line).ok()?.strip_suffix('\n').filter(|text| !text.starts_with('0')).and_then(decimal)
}
