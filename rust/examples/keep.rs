//! A paravisor's use of the crate: build a table when the guest starts, keep it, answer every CPUID exit from it, and before the guest moves ask
//! whether the other server's table is at least its own.
//!
//! `cargo run --example keep -- PAGES OTHER` takes the CPUID pages of the server and of the one to move to.

use snp_cpuid::{CpuidResult, Options, Processor, Refusal, State, Table};
use std::error::Error;

/// One processor of the guest, with the state that was last found good.
struct Virtual<'a> {
    table: &'a Table,
    processor: Processor,
    state: State,
}

impl<'a> Virtual<'a> {
    fn start(table: &'a Table, x2apic: u32) -> Result<Virtual<'a>, Refusal> {
        let processor = Processor::new(x2apic);
        Ok(Virtual { table, processor, state: table.state(1, 0)? })
    }

    /// The guest switches states on: XSETBV, or a write to XSS. A refusal is a general-protection fault.
    fn set_states(&mut self, xcr0: u64, xss: u64) -> Result<(), Refusal> {
        self.state = self.table.state(xcr0, xss)?;
        self.processor = self.processor.xcr0(xcr0).xss(xss).osxsave(true);
        Ok(())
    }

    /// A CPUID exit. Leaves that the table lacks read as zeros.
    fn cpuid(&self, leaf: u32, subleaf: u32) -> CpuidResult {
        self.table.guest_row_kept(self.processor, self.state, leaf, Some(subleaf), false).map_or_else(CpuidResult::default, |found| found.result)
    }
}

fn main() -> Result<(), Box<dyn Error>> {
    let mut files = std::env::args_os().skip(1);
    let (Some(own), Some(other)) = (files.next(), files.next()) else { return Err("usage: keep PAGES OTHER".into()) };
    let table = Table::build(&std::fs::read(own)?, Options::new())?;
    println!("{} rows, states {:X}", table.row_count(), table.max_extended_state());

    let mut first = Virtual::start(&table, 5)?;
    println!("save area {} bytes", first.cpuid(0xD, 0).ebx);
    first.set_states(7, 0x800)?;
    println!("save area {} bytes, compacted {}", first.cpuid(0xD, 0).ebx, first.cpuid(0xD, 1).ebx);
    println!("x2APIC number {}", first.cpuid(0xB, 1).edx);
    if let Err(refusal) = first.set_states(0xE7, 0) {
        println!("refusal {}: {refusal}", refusal.number());
    }

    // the paravisor is updated to edition 2 of the AVX rule under the running guest
    let Processor { xcr0, xss, .. } = first.processor;
    let carried = table.carry(1, 2, xcr0, xss)?;
    println!("carried: {}", carried.compare(&table));

    let there = Table::build(&std::fs::read(other)?, Options::new().edition(2))?;
    println!("to the other server: {}", carried.compare(&there));
    Ok(())
}
