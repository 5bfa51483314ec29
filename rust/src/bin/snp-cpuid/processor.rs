//! The options that describe one processor: whose guest's view a command shows, or on which a table runs.

use crate::arguments::Arguments;
use crate::failure::Failure;
use crate::input::shown;
use crate::json::{Json, hex, object};
use crate::numbers::wide;
use crate::option::Opt;
use snp_cpuid::{Processor, Table};

const OSXSAVE: Opt = Opt::flag(&["--osxsave"], "the operating system has switched XSAVE on (CR4 bit 18)");

/// The option of a command that compares tables.
pub const VIEW: Opt = Opt::flag(&["--view"], "files were taken inside guests: compare what one processor sees of each table");

/// The number options, required or not.
const fn numbers(required: bool) -> [Opt; 3] {
    [
        Opt::number(&["--apic"], "N", required, "the processor's x2APIC number"),
        Opt::number(&["--xcr0"], "X", required, "the processor's XCR0: the user states that are on"),
        Opt::number(&["--xss"], "X", required, "the processor's XSS: the supervisor states that are on"),
    ]
}

const REQUIRED: [Opt; 3] = numbers(true);
const OPTIONAL: [Opt; 3] = numbers(false);

/// The options of a command that shows a processor's view always, and of one that may.
pub const ALWAYS: &[Opt] = &[REQUIRED[0], REQUIRED[1], REQUIRED[2], OSXSAVE];
pub const SOMETIMES: &[Opt] = &[OPTIONAL[0], OPTIONAL[1], OPTIONAL[2], OSXSAVE];

/// The options of a command that asks for its states alone.
pub const STATES: &[Opt] = &[REQUIRED[1], REQUIRED[2]];

/// Processor 0 with all states on that a table allows.
pub fn all_states(table: &Table) -> Processor {
    let row = |subleaf| table.row(0xD, Some(subleaf)).unwrap_or_default();
    let xss = if row(1).eax & 0xA == 0xA { row(1).ecx } else { 0 };
    Processor::new(0).xcr0(row(0).eax.into()).xss(xss.into()).osxsave(true)
}

/// The processor that was described; none where no option of it is given.
pub fn of(arguments: &Arguments, command: &str) -> Result<Option<Processor>, Failure> {
    if !SOMETIMES.iter().any(|option| arguments.has(option)) {
        return Ok(None);
    }
    let x2apic = number(&OPTIONAL[0], u32::MAX.into(), arguments, command)? as u32;
    let (xcr0, xss) = states(arguments, command)?;
    Ok(Some(Processor::new(x2apic).xcr0(xcr0).xss(xss).osxsave(arguments.has(&OSXSAVE))))
}

/// The processor as an object.
pub fn json(processor: Processor) -> Json {
    let wide = |number: u64| format!("{number:X}").into();
    let states = [("xcr0", wide(processor.xcr0)), ("xss", wide(processor.xss)), ("osxsave", processor.osxsave.into())];
    object([("x2apic", hex(processor.x2apic))]).with(states)
}

/// XCR0 and XSS.
pub fn states(arguments: &Arguments, command: &str) -> Result<(u64, u64), Failure> {
    let [_, xcr0, xss] = &OPTIONAL;
    Ok((number(xcr0, u64::MAX, arguments, command)?, number(xss, u64::MAX, arguments, command)?))
}

/// The number that an option gives, which must be there.
fn number(option: &Opt, most: u64, arguments: &Arguments, command: &str) -> Result<u64, Failure> {
    let Some(given) = arguments.value(option.name()) else {
        return Err(Failure::usage(command, &format!("{} is missing", option.wanted())));
    };
    wide(given.to_str().unwrap_or_default()).filter(|&number| number <= most).ok_or_else(|| {
        let bits = 64 - most.leading_zeros();
        Failure::usage(command, &format!("{} '{}' is no hexadecimal number of up to {bits} bits", option.name(), shown(given)))
    })
}
