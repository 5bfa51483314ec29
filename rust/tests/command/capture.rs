//! `capture`, against Debian's `cpuid` on the same processor, and against KVM's own list read by another program.

use crate::debian;
use crate::run::{Folder, finish, run, run_on};
use std::process::Command;

/// The first processor that this process may run on.
fn first_processor() -> String {
    let status = std::fs::read_to_string("/proc/self/status").expect("Linux");
    let list = status.lines().find_map(|line| line.strip_prefix("Cpus_allowed_list:")).expect("a list of processors");
    list.trim().split(['-', ',']).next().expect("a processor").to_string()
}

/// Runs a command on that processor alone (util-linux's taskset).
fn on_first_processor(program: &str, arguments: &[&str]) -> Command {
    let mut command = Command::new("taskset");
    command.args(["-c", &first_processor(), program]).args(arguments);
    command
}

/// The rows that `cpuid` reads by the same instruction on the same processor give the same pages, in the order of the dump.
#[test]
fn what_the_processor_reports_is_what_debians_cpuid_reads() {
    if debian::installed().is_none() {
        return;
    }
    let folder = Folder::new("capture");
    let (own, dumped) = (folder.path("own"), folder.path("dumped"));
    let ran = finish(&mut on_first_processor(env!("CARGO_BIN_EXE_snp-cpuid"), &["capture", "-o", &own]));
    assert_eq!(ran.status, 0, "{}", ran.err);
    assert!(ran.err.contains(&format!(" rows of processor {}, \"", first_processor())), "{}", ran.err);
    // -i: by the instruction
    let dump = on_first_processor("cpuid", &["-1", "-r", "-i"]).output().expect("cpuid runs");
    assert!(dump.status.success());
    assert_eq!(run_on(&dump.stdout, &["from-dump", "-", "-o", &dumped]).status, 0);
    let rows = |file: &str| {
        let ran = run(&["entries", file]);
        let rows = ran.text().lines().filter(|line| line.ends_with("  first") || line.contains("  first, "));
        let mut rows: Vec<String> = rows.map(|line| line[7..55].to_string()).collect();
        rows.sort();
        rows
    };
    let (own, dumped) = (rows(&own), rows(&dumped));
    assert!(own.len() > 10, "{own:?}");
    // cpuid stops at the last subleaf that it knows of
    assert!(dumped.iter().filter(|row| !row.ends_with("00000000 00000000 00000000 00000000")).all(|row| own.contains(row)), "{own:#?}\n{dumped:#?}");
    let extra: Vec<&String> = own.iter().filter(|row| !dumped.contains(row)).collect();
    assert!(extra.iter().all(|row| row.starts_with("0000000B.1") || row.starts_with("0000000D.") || row.starts_with("8000001D.")), "{extra:?}");
}

/// One machine gives the same pages each time, whichever processors the command may run on (util-linux's taskset).
#[test]
fn a_hundred_captures_are_one() {
    if !cfg!(all(target_arch = "x86_64", target_os = "linux")) {
        return;
    }
    let folder = Folder::new("capture_again");
    let captured = |command: &mut Command| {
        assert_eq!(finish(command).status, 0);
        std::fs::read(folder.path("pages")).unwrap()
    };
    let words = ["capture", "-o", &folder.path("pages")];
    let first = captured(crate::run::command().args(words));
    for _ in 1..100 {
        assert!(captured(crate::run::command().args(words)) == first);
    }
    let processors = std::thread::available_parallelism().unwrap().get();
    let on = |processor: usize| {
        let mut command = Command::new("taskset");
        command.args(["-c", &processor.to_string(), env!("CARGO_BIN_EXE_snp-cpuid")]).args(words);
        command
    };
    if on(0).output().is_ok_and(|ran| ran.status.success()) {
        let ran = (0..processors).filter(|processor| on(*processor).output().is_ok_and(|ran| ran.status.success()));
        assert!(ran.map(|processor| captured(&mut on(processor))).all(|pages| pages == first));
    }
}

/// What KVM supports, where it can be opened: read by the C program of the gate's KVM test it is the same list; here it must be pages.
#[test]
fn what_kvm_supports() {
    let folder = Folder::new("capture_kvm");
    let out = folder.path("pages");
    let ran = run(&["capture", "--kvm", "-o", &out]);
    match std::fs::File::options().read(true).write(true).open("/dev/kvm") {
        Ok(_) => {
            assert_eq!(ran.status, 0, "{}", ran.err);
            assert!(ran.err.starts_with("snp-cpuid: note: /dev/kvm: ") && ran.err.contains(" rows, of which the table reads "), "{}", ran.err);
            assert_eq!(std::fs::read(&out).unwrap().len(), 8192);
        }
        Err(_) => {
            assert_eq!(ran.status, 2);
            assert!(ran.line().starts_with("/dev/kvm: "), "{}", ran.err);
            assert_eq!(folder.names(), [""; 0]);
        }
    }
}

#[test]
fn bad_usage() {
    for (arguments, words) in [
        (&["capture"][..], "capture: -o FILE is missing"),
        (&["capture", "x", "-o", "y"], "capture: one operand too many, 'x'"),
        (&["capture", "-o", "no/such/file"], "no/such/file: cannot be written: "),
    ] {
        let ran = run(arguments);
        assert!(ran.status == 2 && ran.line().starts_with(words), "{}", ran.err);
    }
}
