//! `from-dump`: pages from the text of a dump.

use crate::arguments::Arguments;
use crate::building::Building;
use crate::command::Command;
use crate::failure::Failure;
use crate::guest_size::Size;
use crate::input::{read, shown};
use crate::inputs::{self, Kind};
use crate::option::{Opt, Value};
use crate::output;
use std::ffi::OsStr;

const GUEST: Opt = Opt {
    names: &["--guest"],
    value: Value::Word("CORESxTHREADS", "cores and threads of each, as in 4x2"),
    required: false,
    help: "set the numbers that a host sets for a guest of this size",
};

pub const COMMAND: Command = Command {
    name: "from-dump",
    operands: &["FILE"],
    options: &[&[output::file("PAGES"), GUEST]],
    summary: "make pages from the text of 'cpuid -r', or from any other file",
    about: "\
Makes two CPUID pages from the text of Debian's 'cpuid -r', from the other common form, which
InstLatx64 has, from that of libcpuid, or from any other file that 'snp-cpuid --help' names:

   0x0000000d 0x00: eax=0x00000007 ebx=0x00000340 ecx=0x00000340 edx=0x00000000
   CPUID 0000000D: 00000007-00000340-00000340-00000000 [SL 00]
   basic_cpuid[13]=00000007 00000340 00000340 00000000

A row without subleaf has subleaf 0. Headings 'CPU 0:', 'CPU:' and '------[ Logical CPU #0 ]------'
and empty lines may stand between rows; any other line is an error. A section of another title, from
a line '------[ TITLE ]------' to the next such line, is passed over. Of several CPUs the first is
taken. Rows go in in the order of the file, leaf Dh on page 1 and all others on page 0. Only rows
that the table reads go in: leaves 1, 5, 7.0, B.0, B.1, D.0 to D.3F, 80000001 to 80000008, 8000000A,
80000019, 8000001A, 8000001D.0 to .3, 8000001E and 8000001F. The others would fill page 0 and change
nothing; a note on standard error counts them.

A host's dump tells its own processors, and is often refused for it. With --guest 4x2 the pages say
what a host tells a guest of 4 cores with 2 threads each, on its first processor: the topology (1.EBX
bits 16-23, 1.EDX bit 28, 80000008.ECX, leaf B, 8000001E.EBX), the processor's own numbers (1.EBX
bits 24-31, 8000001E), and who shares a cache (8000001D.EAX). THREADS is 1 or 2. Notes name each
register: such pages are made by hand, and no machine reported them.
",
    status: "\
Exit status: 0 written, 1 a list for KVM that is refused, 2 bad usage, or a file that is empty, has
a line that is no row and no heading, has more than the 64 rows that a page holds, or cannot be read
or written.
",
    run,
};

fn run(arguments: &Arguments) -> Result<(), Failure> {
    let (file, bytes) = (&arguments.operands[0], read(&arguments.operands[0])?);
    let building = Building::of(arguments, COMMAND.name)?;
    let size = arguments.value(GUEST.name()).map(size).transpose()?;
    let kind = inputs::kind(&bytes);
    let (mut pages, mut notes) = if matches!(kind, None | Some(Kind::Dump | Kind::Libcpuid)) {
        let name = shown(file);
        let taken = inputs::taken(kind.unwrap_or(Kind::Dump), &bytes).map_err(|why| Failure::Bad(format!("{name}: {why}")))?;
        let notes: Vec<String> = taken.notes.iter().map(|note| format!("{name}: {note}")).chain(taken.left_out()).collect();
        (taken.pages, notes)
    } else {
        (building.pages_of(file, bytes)?.pages, vec![])
    };
    if let Some(size) = size {
        notes.extend(resized(size, &mut pages).map_err(|why| Failure::Bad(format!("{}: {why}", shown(file))))?);
    }
    output::write(arguments, &pages)?;
    notes.iter().for_each(|note| output::note(note));
    Ok(())
}

fn size(given: &OsStr) -> Result<Size, Failure> {
    let wrong = || {
        let why = "is no CORESxTHREADS, as in 4x2: 1 or 2 threads, and 1 to 255 processors or a power of two up to 32768";
        Failure::usage(COMMAND.name, &format!("--guest '{}' {why}", shown(given)))
    };
    given.to_str().and_then(Size::parsed).ok_or_else(wrong)
}

/// Sets the registers of a guest of this size; what was done, in words.
fn resized(size: Size, pages: &mut Vec<u8>) -> Result<Vec<String>, String> {
    let done = size.edits(pages).iter().map(|edit| edit.put(pages)).collect::<Result<Vec<_>, _>>()?;
    Ok([format!("made by hand, for a guest of {}:", size.told())].into_iter().chain(done.into_iter().flatten()).collect())
}
