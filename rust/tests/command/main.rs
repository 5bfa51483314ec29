//! The command `snp-cpuid`, run as a user runs it. Expected answers come from the model of document 01 (its image of the shipped set, and
//! document 01's own rows), the public database of bits, the specification, and Debian's `cpuid`.

use snp_cpuid::features;

mod answers;
mod arithmetic_held;
mod browser;
mod by_hand;
#[path = "caches.rs"]
mod cache_words;
mod capture;
mod carry;
mod check;
mod compare;
mod debian;
mod diff;
#[path = "differences.rs"]
mod differences_held;
mod documents;
mod dump;
mod edition;
mod entries;
mod fleet;
mod guest;
mod images;
mod inputs;
#[path = "json.rs"]
mod json_text;
mod kvm;
mod large_fleets;
mod lookup;
mod manual;
#[path = "masks.rs"]
mod masks_held;
mod names;
mod nearest;
#[path = "order.rs"]
mod order_of_tables;
mod origins;
mod page_sets;
mod pool;
mod reasons;
mod refusals;
mod run;
mod shells;
mod since;
mod table;
mod topologies;
mod usage;

// the command's own tables and writers: names, the rows that go into pages, JSON
#[allow(dead_code)]
#[path = "../../src/bin/snp-cpuid/arguments.rs"]
mod arguments;
#[allow(dead_code)]
#[path = "../../src/bin/snp-cpuid/arithmetic.rs"]
mod arithmetic;
#[allow(dead_code)]
#[path = "../../src/bin/snp-cpuid/caches.rs"]
mod caches;
#[allow(dead_code)]
#[path = "../../src/bin/snp-cpuid/components.rs"]
mod components;
#[allow(dead_code)]
#[path = "../../src/bin/snp-cpuid/differences.rs"]
mod differences;
#[allow(dead_code)]
#[path = "../../src/bin/snp-cpuid/fields.rs"]
mod fields;
#[allow(dead_code)]
#[path = "../../src/bin/snp-cpuid/json.rs"]
mod json;
#[allow(dead_code)]
#[path = "../../src/bin/snp-cpuid/masks.rs"]
mod masks;
#[allow(dead_code)]
#[path = "../../src/bin/snp-cpuid/option.rs"]
mod option;
#[allow(dead_code)]
#[path = "../../src/bin/snp-cpuid/pages.rs"]
mod pages;
#[allow(dead_code)]
#[path = "../../src/bin/snp-cpuid/print.rs"]
mod print;
#[allow(dead_code)]
#[path = "../../src/bin/snp-cpuid/terminal.rs"]
mod terminal;
#[allow(dead_code)]
#[path = "../../src/bin/snp-cpuid/words.rs"]
mod words;
#[allow(dead_code)]
#[path = "../../src/bin/snp-cpuid/wrap.rs"]
mod wrap;
