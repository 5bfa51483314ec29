//! The Rust that bench.c calls: here the crate's own functions, and in map.rs a table in the shape of OpenHCL's.
//!
//! A function that is timed makes all calls of a round, so that a call takes what it takes a caller in Rust; it uses tables and rows as bench.c does.
//! Those of the library's own types are for the comparison before anything is timed.
use snp_cpuid::{CpuidResult, Details, Found, Options, Origin, Processor, Refusal, State, Table, exports};
use std::hint::black_box;
use std::{ptr, slice};

mod map;

/// Leaf and subleaf of each exit.
type Exits = [[u32; 2]; 32];
type Registers = [u32; 352];
type Origins = [u64; 88];

/// What a paravisor keeps for the guest of one processor.
struct Guest {
    table: Table,
    processor: Processor,
    state: State,
}

impl Guest {
    /// A state that the table refuses is asked of `guest_row` alone; then the state kept is that of a processor that starts.
    fn new(registers: &Registers, origins: &Origins, processor: Processor) -> Guest {
        let table = Table::from(exports::Table { registers: *registers, origins: *origins });
        let state = table.state(processor.xcr0, processor.xss).or(table.state(1, 0)).expect("a built table has the x87 state");
        Guest { table, processor, state }
    }
}

/// What is asked of the crate, in every round the same.
pub struct Questions {
    guest: Guest,
    exits: Exits,
}

#[unsafe(no_mangle)]
pub extern "C" fn crate_questions(
    registers: &Registers,
    origins: &Origins,
    x2apic: u32,
    xcr0: u64,
    xss: u64,
    osxsave: bool,
    _size: u32,
    exits: &Exits,
) -> *const Questions {
    let guest = Guest::new(registers, origins, Processor::new(x2apic).xcr0(xcr0).xss(xss).osxsave(osxsave));
    Box::into_raw(Box::new(Questions { guest, exits: *exits }))
}

// ---- timed

/// # Safety
/// `pages` has `length` bytes.
#[unsafe(no_mangle)]
pub unsafe extern "C" fn crate_builds(_: &Questions, pages: *const u8, length: usize, calls: usize) {
    let pages = unsafe { slice::from_raw_parts(pages, length) };
    for _ in 0..calls {
        black_box(&Table::build(pages, Options::new()));
    }
}

/// # Safety
/// `pages` has `length` bytes.
#[unsafe(no_mangle)]
pub unsafe extern "C" fn crate_rebuilds(_: &Questions, pages: *const u8, length: usize, calls: usize) {
    let pages = unsafe { slice::from_raw_parts(pages, length) };
    let mut table = Table::new();
    for _ in 0..calls {
        black_box(&table.rebuild(pages, Options::new()));
        black_box(&table);
    }
}

/// Hands a row on as a handler of CPUID exits does: each register to where its guest finds it, and where the row came from.
#[inline(always)]
fn hand_on(row: Option<Found>, guest: &mut [u64; 5]) {
    let Some(Found { result: CpuidResult { eax, ebx, ecx, edx }, origin }) = row else { return };
    let place = if let Origin::Entry { page, entry } = origin { page + entry } else { 0 };
    for (register, value) in guest.iter_mut().zip([eax.into(), ebx.into(), ecx.into(), edx.into(), place as u64]) {
        // SAFETY: it is a reference
        unsafe { ptr::write_volatile(register, value) };
    }
}

/// One call for each exit in turn.
#[inline(always)]
fn each_exit(questions: &Questions, calls: usize, call: impl Fn(&Guest, u32, Option<u32>) -> Option<Found>) {
    let mut registers = [0; 5];
    for i in 0..calls {
        let [leaf, subleaf] = questions.exits[i % questions.exits.len()];
        hand_on(call(&questions.guest, leaf, Some(subleaf)), &mut registers);
    }
}

#[unsafe(no_mangle)]
pub extern "C" fn crate_finds(questions: &Questions, _: *const u8, _: usize, calls: usize) {
    each_exit(questions, calls, |guest, leaf, subleaf| guest.table.lookup(leaf, subleaf, false));
}

#[unsafe(no_mangle)]
pub extern "C" fn crate_guest_finds(questions: &Questions, _: *const u8, _: usize, calls: usize) {
    each_exit(questions, calls, |guest, leaf, subleaf| guest.table.guest_row(guest.processor, leaf, subleaf, false).unwrap_or(None));
}

#[unsafe(no_mangle)]
pub extern "C" fn crate_guest_finds_kept(questions: &Questions, _: *const u8, _: usize, calls: usize) {
    each_exit(questions, calls, |guest, leaf, subleaf| guest.table.guest_row_kept(guest.processor, guest.state, leaf, subleaf, false));
}

// ---- compared

fn refused(refusal: Refusal) -> exports::Built {
    let Details { leaf, subleaf, s } = refusal.details();
    let (has_subleaf, subleaf) = (subleaf.is_some().into(), subleaf.unwrap_or(0));
    exports::Built { number: refusal.number(), leaf, has_subleaf, subleaf, s: s.into(), ..Default::default() }
}

fn row(found: Option<Found>) -> exports::Found {
    let Some(Found { result, origin }) = found else { return exports::Found::default() };
    let (origin, page, entry) = match origin {
        Origin::MadeHere => (1, 0, 0),
        Origin::Entry { page, entry } => (2, page as u64, entry as u32),
        _ => (3, 0, 0),
    };
    exports::Found { found: 1, eax: result.eax, ebx: result.ebx, ecx: result.ecx, edx: result.edx, origin, page, entry }
}

/// # Safety
/// `pages` has `length` bytes.
#[unsafe(no_mangle)]
pub unsafe extern "C" fn crate_table_build(
    pages: *const u8,
    length: usize,
    secure_avic: bool,
    edition: u32,
    registers: &mut Registers,
    origins: &mut Origins,
) -> exports::Built {
    let pages = unsafe { slice::from_raw_parts(pages, length) };
    let built = Table::build(pages, Options::new().secure_avic(secure_avic).edition(edition));
    let answer = match &built {
        Ok(table) => exports::Built { row_count: table.row_count() as u64, max_extended_state: table.max_extended_state(), ..Default::default() },
        Err(refusal) => refused(*refusal),
    };
    let memory = *built.unwrap_or_default().memory();
    (*registers, *origins) = (memory.registers, memory.origins);
    answer
}

#[unsafe(no_mangle)]
pub extern "C" fn crate_table_find(
    registers: &Registers,
    origins: &Origins,
    leaf: u32,
    has_subleaf: bool,
    subleaf: u32,
    enforce_subleaf: bool,
) -> exports::Found {
    let guest = Guest::new(registers, origins, Processor::default());
    row(guest.table.lookup(leaf, has_subleaf.then_some(subleaf), enforce_subleaf))
}

#[unsafe(no_mangle)]
pub extern "C" fn crate_table_guest_find(
    registers: &Registers,
    origins: &Origins,
    x2apic: u32,
    xcr0: u64,
    xss: u64,
    osxsave: bool,
    leaf: u32,
    has_subleaf: bool,
    subleaf: u32,
    enforce_subleaf: bool,
) -> exports::GuestFound {
    let guest = Guest::new(registers, origins, Processor::new(x2apic).xcr0(xcr0).xss(xss).osxsave(osxsave));
    match guest.table.guest_row(guest.processor, leaf, has_subleaf.then_some(subleaf), enforce_subleaf) {
        Ok(answer) => {
            let exports::Found { found, eax, ebx, ecx, edx, origin, page, entry } = row(answer);
            exports::GuestFound { number: 0, found, eax, ebx, ecx, edx, origin, page, entry }
        }
        Err(refusal) => exports::GuestFound { number: refusal.number(), ..Default::default() },
    }
}

#[unsafe(no_mangle)]
pub extern "C" fn crate_table_guest_find_kept(
    registers: &Registers,
    origins: &Origins,
    x2apic: u32,
    xcr0: u64,
    xss: u64,
    osxsave: bool,
    _size: u32,
    leaf: u32,
    has_subleaf: bool,
    subleaf: u32,
    enforce_subleaf: bool,
) -> exports::Found {
    let guest = Guest::new(registers, origins, Processor::new(x2apic).xcr0(xcr0).xss(xss).osxsave(osxsave));
    row(guest.table.guest_row_kept(guest.processor, guest.state, leaf, has_subleaf.then_some(subleaf), enforce_subleaf))
}
