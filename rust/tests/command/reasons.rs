//! The numbers behind a refusal, and the change that is said to be accepted: it is made here, and the library asked again.

use crate::json_text::jq;
use crate::page_sets::{Entries, epyc, page, rich, set, topology, unclean, with, without};
use crate::run::{EPYC, Folder, Ran, run, run_on};
use snp_cpuid::{Options, Refusal, TopologyError, build, pool};

/// The registers that a refusal's JSON says would be accepted: leaf, subleaf, register, value.
fn registers(folder: &Folder, pages: &[u8]) -> Option<Vec<(u32, u32, usize, u32)>> {
    let file = folder.file("pages", pages);
    let filter = ".refusal.registers | map([.leaf, .subleaf // 0, .register, .value] | join(\" \")) | join(\"\\n\")";
    let text = jq(&run(&["table", &file, "--json"]).out, filter)?;
    let text = text.trim_matches('"').replace("\\n", "\n");
    let number = |text: &str| u32::from_str_radix(text, 16).unwrap();
    let register = |line: &str| {
        let parts: Vec<&str> = line.split(' ').collect();
        let place = ["EAX", "EBX", "ECX", "EDX"].iter().position(|name| *name == parts[2]).unwrap();
        (number(parts[0]), parts[1].parse().unwrap(), place, number(parts[3]))
    };
    Some(text.lines().map(register).collect())
}

/// The entries with those registers.
fn changed(entries: &Entries, registers: &[(u32, u32, usize, u32)]) -> Entries {
    let mut entries = entries.clone();
    for (leaf, subleaf, register, value) in registers {
        entries.get_mut(&(*leaf, *subleaf)).expect("a register of an entry")[*register] = *value;
    }
    entries
}

fn notes(folder: &Folder, pages: &[u8]) -> Vec<String> {
    run(&["table", &folder.file("pages", pages)]).notes().into_iter().map(String::from).collect()
}

/// Topologies of every kind that document 01 refuses, with each size: after the change the pages give a table.
#[test]
fn a_refused_topology_and_its_change() {
    let folder = Folder::new("reasons_topology");
    let (mut tried, mut numbers) = (0, [0; 3]);
    for s in 0..16 {
        let fits = if s < 8 { 1 << s } else { 0 };
        for (nc, lps, mt, t) in [
            (0, fits, 0, 0),
            (0, 0, 0, 0),
            (0, 2, 0, 0),
            (3, 1, 0, 0),
            (255, 0, 1, 0),
            (255, 200, 1, 1),
            (127, 32, 1, 1),
            (31, 32, 1, 1),
            (200, 64, 0, 9),
            (1, 2, 1, 255),
            (0, 1, 1, 1),
            (0, 0, 1, 0),
            (7, 8, 1, 2),
        ] {
            let mut entries = rich();
            topology(&mut entries, s, nc, lps, mt, t);
            let number = match build(&set(&entries), Options::new()) {
                Ok(_) => continue,
                Err(Refusal::TopologyInconsistent(TopologyError::Hyperthreading(_))) => 0,
                Err(Refusal::TopologyInconsistent(TopologyError::ProcessorCount(_))) => 1,
                Err(Refusal::TopologyInconsistent(TopologyError::ThreadsPerUnit)) => 2,
                Err(other) => panic!("{other:?}"),
            };
            let Some(registers) = registers(&folder, &set(&entries)) else { return };
            assert!(!registers.is_empty());
            assert!(build(&set(&changed(&entries, &registers)), Options::new()).is_ok(), "s {s}, nc {nc}, lps {lps}, mt {mt}, t {t}: {registers:X?}");
            // each change is needed: it differs from what stands there
            assert!(registers.iter().all(|(leaf, subleaf, register, value)| entries[&(*leaf, *subleaf)][*register] != *value));
            (tried, numbers[number]) = (tried + 1, numbers[number] + 1);
        }
    }
    assert!(tried > 100 && numbers.iter().all(|count| *count > 5), "{tried} {numbers:?}");
}

/// Several refusals after one another: the change is all that is to be done, or says what comes next.
#[test]
fn a_change_goes_on_until_the_pages_are_accepted() {
    let folder = Folder::new("reasons_chain");
    let mut entries = with(0x8000_0008, 0, 1, |ebx| ebx & !8);
    topology(&mut entries, 6, 31, 32, 1, 3);
    entries.get_mut(&(0xD, 0)).unwrap()[0] |= 0x20;
    let pages = set(&entries);
    assert_eq!(build(&pages, Options::new()), Err(Refusal::InvlpgbUnavailable));
    let told = notes(&folder, &pages);
    let change =
        ", which only a server that has INVLPGB may say, and 0000000D.0.EAX at 00000207 and 00000001.EBX at 00400800 and 8000001E.EBX at 00000100";
    assert!(told.len() == 2 && told[1].starts_with("accepted with 80000008.EBX at ") && told[1].contains(change), "{told:?}");
    let Some(registers) = registers(&folder, &pages) else { return };
    assert_eq!(registers.len(), 4);
    assert!(build(&set(&changed(&entries, &registers)), Options::new()).is_ok());
    // reserved bytes, and behind them the rest; at last a row that no change of registers brings
    let unclean_pages = unclean(&entries, 0, 1, 2);
    assert!(notes(&folder, &unclean_pages)[1].starts_with("accepted with zeros in those bytes and 80000008.EBX at "));
    entries.remove(&(0x5, 0));
    let told = notes(&folder, &unclean(&entries, 0, 1, 2));
    assert_eq!(told[1], "needs zeros in those bytes; then comes refusal 3: no entry for leaf 5h, which every guest needs");
}

/// The figures of issue and rule: 32 processors where size 6 asks for 64.
#[test]
fn the_rule_is_named_where_both_counts_are_equal() {
    let folder = Folder::new("reasons_counts");
    let mut entries = epyc();
    topology(&mut entries, 6, 31, 32, 1, 1);
    let told = notes(&folder, &set(&entries));
    assert!(told[0].starts_with("1.EBX bits 16-23 give 32 logical processors and must give 2^6 = 64, for APIC core id size 6 "), "{told:?}");
    assert!(told[1].starts_with("accepted with 00000001.EBX at 00400800 (size 6, processors 32, logical processors 64, "), "{told:?}");
    topology(&mut entries, 6, 99, 64, 1, 1);
    let told = notes(&folder, &set(&entries));
    assert!(told[0].starts_with("80000008h.ECX bits 0-7 plus 1 are 100 processors, more than the 2^6 = 64 of APIC core id size 6 "), "{told:?}");
}

#[test]
fn invlpgb_states_and_sizes() {
    let folder = Folder::new("reasons_registers");
    let mut two_states = rich();
    two_states.remove(&(0xD, 5));
    two_states.remove(&(0xD, 12));
    let mut large = rich();
    large.get_mut(&(0xD, 2)).unwrap()[0] = u32::MAX;
    large.get_mut(&(0xD, 7)).unwrap()[1] = u32::MAX;
    let invlpgb = format!("80000008.EBX is {:08X} (page 0 entry 19): its bit 3 is clear", epyc()[&(0x8000_0008, 0)][1] & !8);
    for (entries, number, told) in [
        (with(0x8000_0008, 0, 1, |ebx| ebx & !8), 4, vec![invlpgb.as_str()]),
        (
            two_states,
            3,
            vec!["no entry for 0000000D.5, 0000000D.C", "D.0.EAX 000000E7 and XSS 00001800 ask for the states AVX (D.2), opmask (D.5), "],
        ),
        (
            large,
            5,
            vec!["D.2 (page 1 entry 2): EAX FFFFFFFF + EBX 00000240 = 10000023F, over FFFFFFFF", "D.7 (page 1 entry 5): EAX 00000400 + EBX FFFFFFFF"],
        ),
    ] {
        let pages = set(&entries);
        assert_eq!(build(&pages, Options::new()).unwrap_err().number(), number);
        let notes = notes(&folder, &pages);
        assert!(told.iter().all(|part| notes[0].contains(part)), "{notes:?}");
        let Some(registers) = registers(&folder, &pages) else { return };
        assert!(!registers.is_empty());
        assert!(build(&set(&changed(&entries, &registers)), Options::new()).is_ok(), "{registers:X?}");
    }
}

/// All rows that are missing are named, and entries for them that do not count.
#[test]
fn missing_rows() {
    let folder = Folder::new("reasons_missing");
    let mut none = without(0x5, 0);
    none.remove(&(0x8000_001D, 2));
    assert_eq!(notes(&folder, &set(&none))[0], "no entry for 00000005, 8000001D.2");
    // leaf Dh on page 0 alone
    let entries = epyc();
    let swapped: Vec<u8> =
        [page(entries.iter().filter(|(place, _)| place.0 == 0xD)), page(entries.iter().filter(|(place, _)| place.0 != 0xD))].concat();
    let told = &notes(&folder, &swapped)[0];
    assert!(told.starts_with("no entry for 0000000D.0, 0000000D.1; page 0 entry 0 has 0000000D.0, but leaf Dh counts on page 1 alone; "), "{told}");
    // above the count
    let mut cut = set(&entries);
    cut[4096] = 4;
    let told = &notes(&folder, &cut)[0];
    assert!(
        told.ends_with(
            "; page 1 entry 4 has 0000000D.B, but it is above its page's count; page 1 entry 5 has 0000000D.C, but it is above its page's count"
        ),
        "{told}"
    );
}

#[test]
fn lengths_counts_and_reserved_bytes() {
    let folder = Folder::new("reasons_bytes");
    let shipped = set(&epyc());
    assert_eq!(notes(&folder, &shipped[..8190])[0], "it has 8190 bytes: 1 page of 4,096 and 4094 over");
    let mut counted = shipped.clone();
    counted[4096..4100].copy_from_slice(&[65, 1, 0, 0]);
    assert_eq!(notes(&folder, &counted)[0], "page 1 counts 321");
    let told = notes(&folder, &unclean(&epyc(), 1, 2, 3));
    assert_eq!(told, ["page 1 entry 2 (leaf 0000000D) has 00 00 00 01 00 00 00 00 in its last eight bytes", "accepted with zeros in those bytes"]);
}

/// 19 names the servers, leaves and registers; with the first server's values in those registers the pool is accepted.
#[test]
fn servers_of_a_pool_that_differ() {
    let folder = Folder::new("reasons_pool");
    let mut second = with(0x1, 0, 0, |eax| eax ^ 0x10);
    second.get_mut(&(0x8000_001D, 3)).unwrap()[2] ^= 1;
    // features and the save area's size are no difference, and neither is what the masks hide
    second.get_mut(&(0x1, 0)).unwrap()[2] &= !(1 << 12);
    second.get_mut(&(0xD, 0)).unwrap()[2] += 64;
    second.get_mut(&(0x8000_000A, 0)).unwrap()[1] ^= 0xFF;
    let third = with(0x8000_0002, 0, 3, |edx| edx ^ 1);
    let (a, b, c) = (EPYC.to_string(), folder.file("b", set(&second)), folder.file("c", set(&third)));
    let ran = run(&["pool", &a, &b, &c]);
    assert!(ran.line().starts_with("the pool: refusal 19: "));
    let edx = epyc()[&(0x8000_0002, 0)][3];
    let expected = format!(
        "{b} differs from {a} in 00000001.EAX (00A00F01, 00A00F11), 8000001D.3.ECX (00007FFE, 00007FFF); {c} differs from {a} in 80000002.EDX \
         ({:08X}, {edx:08X})",
        edx ^ 1
    );
    assert_eq!(ran.notes()[0], expected);
    second.get_mut(&(0x1, 0)).unwrap()[0] ^= 0x10;
    second.get_mut(&(0x8000_001D, 3)).unwrap()[2] ^= 1;
    assert!(pool(&[set(&epyc()), set(&second), set(&epyc())], Options::new()).is_ok());
    let alone = run(&["pool", &a]);
    assert_eq!(alone.notes()[0], "1 page set given");
    assert_eq!(run(&["pool", &a, &b, &c, "--json"]).err, ran.err);
    if let Some(read) = jq(&run(&["pool", &a, &b, &c, "--json"]).out, "[.answer, .file, .refusal.number, .refusal.numbers]") {
        assert_eq!(read, format!("[\"refused\",\"the pool\",19,\"{expected}\"]"));
    }
}

/// HTT tells a topology and must be equal, though it stands in a feature register.
#[test]
fn hyperthreading_in_a_pool() {
    let folder = Folder::new("reasons_pool_htt");
    let server = |name: &str, mt| {
        let mut entries = epyc();
        topology(&mut entries, 8, 127, 128, mt, 1);
        folder.file(name, set(&entries))
    };
    let (a, b) = (server("a", 1), server("b", 0));
    let ran = run(&["pool", &a, &b]);
    assert_eq!(ran.notes()[0], format!("{b} differs from {a} in 00000001.EDX (078BFBFF, 178BFBFF)"));
}

fn listed(rows: &[[u32; 10]]) -> Vec<u8> {
    let words = [rows.len() as u32, 0].into_iter().chain(rows.iter().flatten().copied());
    words.flat_map(u32::to_le_bytes).collect()
}

#[test]
fn lists_for_kvm() {
    let told = |list: &[u8]| -> Vec<String> {
        let ran: Ran = run_on(list, &["from-kvm", "-", "-o", "/dev/null"]);
        assert_eq!(ran.status, 1);
        ran.notes().into_iter().map(String::from).collect()
    };
    assert_eq!(told(&[1, 0, 0])[0], "it has 3 bytes");
    assert_eq!(told(&listed(&[[0; 10]])[..40]), ["it has 40 bytes and counts 1 rows", "needs 48 bytes"]);
    let mut head = listed(&[[0; 10]]);
    head[4] = 9;
    assert_eq!(told(&head)[0], "the second word of its head is 00000009");
    assert_eq!(told(&listed(&[[0; 10], [0xD, 1, 2, 0, 0, 0, 0, 0, 0, 0]]))[0], "row 1, counted from 0, of leaf 0000000D has flags 00000002");
    assert_eq!(
        told(&listed(&[[5, 0, 0, 0, 0, 0, 0, 0, 0, 7]]))[0],
        "row 0, counted from 0, of leaf 00000005 has 00000007 where a zero word must stand"
    );
    assert_eq!(told(&listed(&[[5, 0, 0, 0, 0, 0, 0, 0, 0, 0]; 65]))[0], "0 rows of leaf Dh and 65 of all others");
}
