//! `check`: views of a table by the library, as dumps, against the table and others; and the machine's own processors.

use crate::page_sets::{epyc, set, with};
use crate::run::{EPYC, Folder, run, run_on};
use snp_cpuid::{Options, Processor, Table, build};

const NOTE: &str = "snp-cpuid: note: leaves that no table has are not looked at\n";

fn table() -> Table {
    build(&std::fs::read(EPYC).unwrap(), Options::new()).unwrap()
}

pub fn processor(x2apic: u32, xcr0: u64, xss: u64, osxsave: bool) -> Processor {
    Processor::new(x2apic).xcr0(xcr0).xss(xss).osxsave(osxsave)
}

/// The text of `cpuid -r` of processors that see a table, each in its state.
pub fn dump(table: &Table, processors: &[Processor]) -> String {
    let mut text = String::new();
    for (number, processor) in processors.iter().enumerate() {
        text += &format!("CPU {number}:\n");
        for row in &table.guest(*processor).expect("the table allows the state") {
            let r = row.result;
            let place = format!("0x{:08x} 0x{:02x}", row.leaf, row.subleaf.unwrap_or(0));
            text += &format!("   {place}: eax=0x{:08x} ebx=0x{:08x} ecx=0x{:08x} edx=0x{:08x}\n", r.eax, r.ebx, r.ecx, r.edx);
        }
    }
    text
}

/// Every processor in every state sees the table: as image, pages, list and dump, by the dump of all. One file may be both.
#[test]
fn every_state_of_a_table_is_the_table() {
    let folder = Folder::new("check_states");
    let image = folder.file("image", table().image());
    let mut all = vec![];
    for xcr0 in [1, 3, 7] {
        for xss in [0, 0x800, 0x1000, 0x1800] {
            let number = 17 * all.len() as u32;
            all.extend([processor(number, xcr0, xss, true), processor(number | 0x100, xcr0, xss, false)]);
        }
    }
    let dump = folder.file("dump", dump(&table(), &all).as_bytes());
    let (list, text) = (folder.file("list", run(&["to-kvm", EPYC, "-o", "-"]).out), folder.file("text", run(&["to-dump", EPYC]).out));
    for file in [EPYC, &image, &list, &text] {
        let ran = run(&["check", file, "--dump", &dump]);
        let line = format!("same: {} processors see the table {}\n", all.len(), table().fingerprint());
        assert_eq!((ran.status, ran.text(), ran.err.as_str()), (0, line.as_str(), NOTE));
    }
    assert_eq!(run(&["check", &text, "--dump", &text]).status, 0);
    let json = run(&["check", &image, "--dump", &dump, "--json"]);
    assert!(json.status == 0 && json.text().contains("\"answer\": \"same\"") && json.text().contains(&table().fingerprint().to_string()));
}

/// One processor of three has a bit less, a value changed and a row less: it is named with them, and the others are not.
#[test]
fn what_one_processor_shows_otherwise() {
    let folder = Folder::new("check_unlike");
    let three = [processor(0, 7, 0x800, true), processor(1, 7, 0x800, true), processor(2, 7, 0x800, true)];
    let text = dump(&table(), &three);
    let (before, last) = text.split_at(text.find("CPU 2").unwrap());
    let row = |leaf: &str| last.lines().find(|line| line.starts_with(&format!("   {leaf}"))).unwrap().to_string();
    let features = row("0x00000007 0x00").replacen("ebx=0x219", "ebx=0x218", 1);
    let last = last.replace(&row("0x00000007 0x00"), &features).replace(&(row("0x80000019") + "\n"), "");
    assert_ne!(features, row("0x00000007 0x00"));
    let ran = run(&["check", EPYC, "--dump", &folder.file("dump", (before.to_string() + &last).as_bytes())]);
    let mut lines = ran.text().lines();
    assert_eq!(ran.status, 1);
    assert_eq!(lines.next(), Some(format!("no: 1 of 3 processors does not see the table {}", table().fingerprint()).as_str()));
    assert_eq!(lines.next(), Some("CPU 2, x2APIC 2, XCR0 7, XSS 800, OSXSAVE on"));
    let first = lines.next().unwrap();
    assert!(first.starts_with("   00000007.0  EBX  table 219C") && first.contains(", here 218C") && first.ends_with(": SMAP"), "{first}");
    assert_eq!(lines.next().map(|line| &line[..20]), Some("   80000019    EAX  "));
    assert!(lines.all(|line| line.ends_with("here no such row")), "{}", ran.text());
}

/// The other server's table is told apart, by the bit; a state beyond the table is not the table's.
#[test]
fn another_table() {
    let folder = Folder::new("check_other");
    let less = folder.file("less", set(&with(0x1, 0, 2, |ecx| ecx & !(1 << 12))));
    let text = dump(&table(), &[processor(9, 7, 0, true)]);
    let ran = run_on(text.as_bytes(), &["check", &less, "--dump", "-"]);
    assert_eq!(ran.status, 1);
    assert!(ran.text().contains("\n   00000001    ECX  table ") && ran.text().trim_end().ends_with(": FMA"), "{}", ran.text());
    let json = run_on(text.as_bytes(), &["check", &less, "--dump", "-", "--json"]);
    assert!(json.status == 1 && json.text().contains("\"name\": \"FMA\""), "{}", json.text());
}

/// Inside the machine that runs the tests: each processor that it may run on is asked.
#[test]
fn the_machines_own_processors() {
    if !cfg!(all(target_arch = "x86_64", target_os = "linux")) {
        return;
    }
    let ran = run(&["check", EPYC, "--json"]);
    assert!(ran.status < 2, "{}", ran.err);
    let status = std::fs::read_to_string("/proc/self/status").unwrap();
    let allowed = status.lines().find_map(|line| line.strip_prefix("Cpus_allowed_list:")).unwrap().trim().to_string();
    let many: usize = allowed
        .split(',')
        .map(|part| match part.split_once('-') {
            Some((first, last)) => last.parse::<usize>().unwrap() - first.parse::<usize>().unwrap() + 1,
            None => 1,
        })
        .sum();
    assert_eq!(ran.text().matches("\"name\": \"processor ").count(), many, "{}", ran.text());
}

#[test]
fn what_is_no_table_and_no_dump() {
    let folder = Folder::new("check_bad");
    let image = table().image();
    let (cut, none, pages) = (folder.file("cut", &image[1..]), folder.file("none", b""), folder.file("pages", &set(&epyc())[..4096]));
    let mut flagged = run(&["to-kvm", EPYC, "-o", "-"]).out;
    flagged[16] = 2;
    let list = folder.file("list", flagged);
    let whole = dump(&table(), &[processor(0, 1, 0, true)]);
    let without: String = whole.lines().filter(|line| !line.contains("0x0000000d")).map(|line| format!("{line}\n")).collect();
    let (dump, without, text) =
        (folder.file("dump", whole.as_bytes()), folder.file("without", without.as_bytes()), folder.file("text", b"CPU 0:\nhello\n"));
    for (file, given, words) in [
        (&cut, &dump, format!("{cut}: no CPUID pages, image, list for KVM, dump or sev=debug log")),
        (&none, &dump, format!("{none}: it is empty")),
        (&list, &dump, format!("{list}: refusal 12: ")),
        (&pages, &dump, format!("{pages}: it gives no table: refusal 3: ")),
        (&EPYC.to_string(), &without, format!("{without}: CPU 0 has no row for leaf D, ")),
        (&EPYC.to_string(), &none, format!("{none}: is empty, ")),
        (&EPYC.to_string(), &text, format!("{text}: line 2 is no CPUID row and no heading: 'hello'")),
        (&EPYC.to_string(), &"no/such".to_string(), "no/such: ".to_string()),
    ] {
        let ran = run(&["check", file, "--dump", given]);
        assert!(ran.status == 2 && ran.line().starts_with(&words), "{words}: {ran:?}");
    }
    let both = run(&["check", "-", "--dump", "-"]);
    assert!(both.status == 2 && both.line().starts_with("check: standard input can be one file only"));
}
