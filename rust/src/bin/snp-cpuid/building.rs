//! What every command that builds a table has in common: its options, the table of a file, and how a refusal is told.

use crate::arguments::Arguments;
use crate::failure::Failure;
use crate::input::{read, shown};
use crate::inputs::{self, NotRead};
use crate::json::{self, Json, object};
use crate::numbers::decimal;
use crate::option::Opt;
use crate::output;
use crate::reasons::{self, Reason};
use crate::source::Source;
use snp_cpuid::{ANY_KVM_BYTES, Bit, Comparison, NotPooled, Options, Origin, Processor, Refusal, Table};
use std::ffi::OsStr;
use std::fmt::Display;

const SECURE_AVIC: Opt = Opt::flag(&["--secure-avic"], "keep the secure-AVIC bit of 8000001Fh.EAX");

const EDITION: Opt = Opt::decimal(&["--edition"], "N", false, "edition of the AVX rule, usually 1; 2 hides F16C, XOP, FMA4 without YMM state");

const LINE: Opt = Opt::flag(&["--line"], "where the pages are refused, print the refusal's line too");

/// The options of every command that builds under one edition.
pub const OPTIONS: &[Opt] = &[SECURE_AVIC, EDITION, LINE];

/// The options of one that goes on where pages are refused.
pub const OPTIONS_BUT_LINE: &[Opt] = &[SECURE_AVIC, EDITION];

/// The options of one that names its editions itself.
pub const OPTIONS_BUT_EDITION: &[Opt] = &[SECURE_AVIC, LINE];

/// The choices that these options give.
#[derive(Clone, Copy)]
pub struct Building {
    options: Options,
    line: bool,
    json: bool,
    /// whether an option was given that an image, whose table is made, cannot heed
    of_pages: bool,
}

impl Building {
    /// The choices that were given to a command.
    pub fn of(arguments: &Arguments, command: &str) -> Result<Building, Failure> {
        Building::by(&EDITION, arguments, command)
    }

    /// The choices that were given to a command, the edition by an option of its own; the usual one where it is not given.
    pub fn by(edition: &Opt, arguments: &Arguments, command: &str) -> Result<Building, Failure> {
        let options = Options::new().secure_avic(arguments.has(&SECURE_AVIC));
        let options = self::edition(edition, arguments, command)?.map_or(options, |given| options.edition(given));
        let (line, json) = (arguments.has(&LINE), json::asked(arguments));
        if line && json {
            return Err(Failure::usage(command, "--line and --json both go to standard output: the JSON of a refusal has its line"));
        }
        let of_pages = arguments.has(&EDITION) || arguments.has(&SECURE_AVIC);
        Ok(Building { options, line, json, of_pages })
    }

    /// The same choices under other options of building.
    pub fn under(&self, options: Options) -> Building {
        Building { options, ..*self }
    }

    /// The edition of the AVX rule.
    pub fn edition(&self) -> u32 {
        self.options.edition
    }

    /// Whether the secure-AVIC bit is kept.
    pub fn secure_avic(&self) -> bool {
        self.options.secure_avic
    }

    /// Whether JSON was asked for.
    pub fn json(&self) -> bool {
        self.json
    }

    /// The table of pages.
    pub fn build(&self, pages: &[u8]) -> Result<Table, Refusal> {
        snp_cpuid::build(pages, self.options)
    }

    /// Whether a guest of one server may move to another.
    pub fn compare(&self, from: &[u8], to: &[u8]) -> Comparison {
        snp_cpuid::compare(from, to, self.options)
    }

    /// The table of a pool of servers.
    pub fn pool(&self, sets: &[impl AsRef<[u8]>]) -> Result<Table, NotPooled> {
        snp_cpuid::pool(sets, self.options)
    }

    /// The nearest bit that matters.
    pub fn nearest(&self, pages: &[u8]) -> Result<Bit, Refusal> {
        snp_cpuid::nearest(pages, self.options)
    }

    /// What a file gives.
    pub fn source(&self, file: &OsStr) -> Result<Source, Failure> {
        self.source_of(file, read(file)?)
    }

    /// What a file of these bytes gives, told apart by them. What a reader should know of it is said at once.
    fn source_of(&self, file: &OsStr, bytes: Vec<u8>) -> Result<Source, Failure> {
        let input = inputs::input(bytes).map_err(|not_read| self.not_read(file, not_read))?;
        input.notes.iter().for_each(|note| output::note(&format!("{}: {note}", shown(file))));
        Ok(Source::new(shown(file), input, self.options))
    }

    /// The same as pages: of an image those that have its rows.
    pub fn pages_of(&self, file: &OsStr, bytes: Vec<u8>) -> Result<Source, Failure> {
        let source = self.source_of(file, bytes)?.into_pages(self)?;
        if source.image.is_some() {
            output::note(&format!("{}: an image, told by pages that have its rows", source.file));
        }
        Ok(source)
    }

    /// Why a file gives nothing.
    fn not_read(&self, file: &OsStr, not_read: NotRead) -> Failure {
        match not_read {
            NotRead::Refused(refusal, reason) => self.refused(shown(file), refusal, &reason),
            NotRead::Foreign(why) | NotRead::Damaged(why) => Failure::Bad(format!("{}: {why}", shown(file))),
        }
    }

    /// The same of one file, where no option was given that an image cannot heed.
    pub fn heeding(&self, file: &OsStr) -> Result<Source, Failure> {
        let source = self.source(file)?;
        self.heeded_by(std::slice::from_ref(&source))?;
        Ok(source)
    }

    /// Bad usage where an option was given that is for pages, and all files are images.
    pub fn heeded_by(&self, sources: &[Source]) -> Result<(), Failure> {
        match sources {
            [first, ..] if self.of_pages && sources.iter().all(|source| source.image.is_some()) => {
                Err(Failure::Bad(format!("{} is an image, whose table is made: --edition and --secure-avic are for pages", first.file)))
            }
            _ => Ok(()),
        }
    }

    /// The list for KVM of a file.
    pub fn kvm_list(&self, file: &OsStr) -> Result<Vec<u8>, Failure> {
        let mut list = vec![0; ANY_KVM_BYTES];
        let length = self.table(file)?.write_kvm(&mut list).expect("there is room for every row");
        list.truncate(length);
        Ok(list)
    }

    /// The table of a file.
    pub fn table(&self, file: &OsStr) -> Result<Table, Failure> {
        let source = self.heeding(file)?;
        source.table().map_err(|refusal| self.pages_refused(file, refusal, &source.pages))
    }

    /// The table of a file as a processor's guest sees it; as the paravisor has it where no processor is given.
    pub fn seen(&self, file: &OsStr, processor: Option<Processor>) -> Result<Table, Failure> {
        self.view(file, &self.table(file)?, processor)
    }

    /// The same of the table that the file has given.
    pub fn view(&self, file: &OsStr, table: &Table, processor: Option<Processor>) -> Result<Table, Failure> {
        let Some(processor) = processor else { return Ok(table.clone()) };
        let refused = |refusal| self.refused(shown(file), refusal, &reasons::of_guest(refusal, table, processor.xcr0, processor.xss));
        table.guest(processor).map_err(refused)
    }

    /// Why a file of pages was refused.
    pub fn reason(&self, refusal: Refusal, pages: &[u8]) -> Reason {
        match refusal {
            Refusal::UnknownEdition => reasons::of_edition(self.edition()),
            _ => reasons::of_pages(refusal, pages),
        }
    }

    /// The refusal of a file of pages.
    pub fn pages_refused(&self, file: &OsStr, refusal: Refusal, pages: &[u8]) -> Failure {
        self.refused(shown(file), refusal, &self.reason(refusal, pages))
    }

    /// A refusal in words; its line, or its JSON, goes to standard output where that was asked for.
    pub fn refused(&self, name: impl Display, refusal: Refusal, reason: &Reason) -> Failure {
        let printed = if self.json { output::print(refused(&name.to_string(), refusal, reason).to_string()) } else { self.print_line(refusal) };
        let failure = Failure::No { line: format!("{name}: {}", told(refusal)), notes: reason.notes() };
        printed.err().unwrap_or(failure)
    }

    /// The refusal's line to standard output, where it was asked for.
    pub fn print_line(&self, refusal: Refusal) -> Result<(), Failure> {
        if self.line { output::print(refusal.line()) } else { Ok(()) }
    }

    /// The refusal's line after a report, where it was asked for, and the refusal in words.
    pub fn refused_after_report(&self, name: impl Display, refusal: Refusal, reason: &Reason) -> Failure {
        Building { json: false, ..*self }.refused(name, refusal, reason)
    }
}

/// The edition under which a table was made here, for an object; null where it was read from an image.
pub fn edition_json(table: &Table, edition: u32) -> Json {
    let read = table.rows().any(|row| row.origin == Origin::Unknown);
    (!read).then_some(edition).into()
}

/// The edition that an option gives; none where it is not given.
pub fn edition(option: &Opt, arguments: &Arguments, command: &str) -> Result<Option<u32>, Failure> {
    let number = |given: &OsStr| {
        let wrong = || Failure::usage(command, &format!("{} '{}' is no decimal number of up to 32 bits", option.name(), shown(given)));
        given.to_str().and_then(decimal).ok_or_else(wrong)
    };
    arguments.value(option.name()).map(number).transpose()
}

/// A refusal's number and words, which name all that it carries.
pub fn told(refusal: Refusal) -> String {
    format!("refusal {}: {refusal}", refusal.number())
}

/// The object of a refused file.
pub fn refused(name: &str, refusal: Refusal, reason: &Reason) -> Json {
    object([("answer", "refused".into()), ("file", name.into()), ("refusal", refusal_json(refusal, reason))])
}

/// A refusal as an object: its number, what it names beside that, its line and words, and the reason. What it does not name is null.
pub fn refusal_json(refusal: Refusal, reason: &Reason) -> Json {
    let (details, number) = (refusal.details(), refusal.number());
    let line = refusal.line();
    object([
        ("number", number.into()),
        ("leaf", if matches!(number, 3 | 17) { json::hex(details.leaf) } else { Json::Null }),
        ("subleaf", details.subleaf.into()),
        ("s", matches!(number, 6 | 7).then_some(u32::from(details.s)).into()),
        ("line", line.trim_end().into()),
        ("words", refusal.to_string().into()),
    ])
    .with(reason.json())
}
