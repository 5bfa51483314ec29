//! A guest's size: the registers that a host sets for it, whatever the host's own processors report.

use crate::edits::Edit;
use crate::features::{EAX, EBX, ECX, EDX};
use crate::numbers::decimal;
use crate::standing::Standing;
use crate::topology::{Numbers, own_bits};
use crate::words::counted;

/// Cores and threads of each.
#[derive(Clone, Copy)]
pub struct Size {
    cores: u32,
    threads: u32,
}

impl Size {
    /// CORESxTHREADS. A table tells numbers of processors up to 255, and powers of two up to 32,768.
    pub fn parsed(text: &str) -> Option<Size> {
        let (cores, threads) = text.split_once('x')?;
        let size = Size { cores: decimal(cores)?, threads: decimal(threads)? };
        let told = match u64::from(size.cores) * u64::from(size.threads) {
            1..=255 => true,
            processors => processors <= 1 << 15 && processors.is_power_of_two(),
        };
        (told && matches!(size.threads, 1 | 2)).then_some(size)
    }

    fn processors(&self) -> u32 {
        self.cores * self.threads
    }

    /// In words.
    pub fn told(&self) -> String {
        format!("{}, {} per core", counted(self.processors(), "processor"), counted(self.threads, "thread"))
    }

    /// The five numbers of the topology: by the size of APIC numbers where the processors are a power of two, else by their count alone.
    fn numbers(&self) -> Numbers {
        let processors = self.processors();
        let s = if processors.is_power_of_two() { processors.ilog2() } else { 0 };
        // counts that do not fit eight bits are not compared
        Numbers { s, nc: (processors - 1).min(255), lps: processors.min(255), mt: u32::from(processors > 1), t: self.threads - 1 }
    }

    /// The registers of a guest of this size on processor 0: the topology, its numbers, and who shares a cache; of rows that the pages have, but for
    /// leaf Bh, which is the topology's own.
    pub fn edits(&self, pages: &[u8]) -> Vec<Edit> {
        let standing = Standing::of(pages);
        let old = |leaf: u32, subleaf: Option<u32>| standing.first(leaf, subleaf).map(|place| place.registers);
        let edit = |leaf, subleaf, register, value| Edit { leaf, subleaf, register, value };
        let mut edits: Vec<Edit> = vec![];
        for (leaf, register, value) in self.numbers().registers(|leaf| old(leaf, None).unwrap_or_default()) {
            edits.push(edit(leaf, 0, register, value & !own_bits(leaf, register)));
        }
        // a guest's processors are of one node
        edits.extend([edit(0x8000_001E, 0, EAX, 0), edit(0x8000_001E, 0, ECX, 0)]);
        edits.extend((0..4).filter_map(|k| Some(edit(0x8000_001D, k, EAX, self.sharing(old(0x8000_001D, Some(k))?[EAX])))));
        edits.retain(|edit| standing.first(edit.leaf, crate::masks::kept(edit.leaf, edit.subleaf).and_then(|kept| kept.subleaf)).is_some());
        let level = |k: u32, processors: u32| {
            let shift = processors.next_power_of_two().ilog2();
            [(EAX, shift), (EBX, processors), (ECX, (k + 1) << 8 | k), (EDX, 0)].map(|(register, value)| edit(0xB, k, register, value))
        };
        edits.into_iter().chain(level(0, self.threads)).chain(level(1, self.processors())).collect()
    }

    /// 8000001Dh.EAX with the threads that share the cache, bits 14-25, less one: of one core below level 3, and no more than there are.
    fn sharing(&self, old: u32) -> u32 {
        let most = if old >> 5 & 7 < 3 { self.threads } else { self.processors() } - 1;
        let shared = (old >> 14 & 0xFFF).min(most);
        old & !(0xFFF << 14) | shared << 14
    }
}
