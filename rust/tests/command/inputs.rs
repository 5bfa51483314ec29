//! Every command reads every kind of file, told apart by its bytes; a file that is none is said to be none. Folders are read as they are.

use crate::page_sets::{EPYC_ROWS, Entries, epyc, page, set, unclean, with};
use crate::run::{BUILDING, EPYC, Folder, READING, run, run_on, with_files};
use std::fs;
use std::process::{Command, Stdio};

/// One page with leaf Dh on it, as QEMU writes it: entries of all leaves in order.
fn one_page(entries: &Entries) -> Vec<u8> {
    page(entries)
}

/// The lines that a Linux guest prints of its page, between others (arch/x86/coco/sev/core.c).
fn log(page: &[u8]) -> String {
    let word = |at: usize| u32::from_le_bytes(page[at..at + 4].try_into().unwrap());
    let wide = |at: usize| u64::from_le_bytes(page[at..at + 8].try_into().unwrap());
    let mut text = format!("[    0.0] Linux version 6.12\n[    0.5] SEV: count={} reserved=0x0 reserved2=0x0\n", word(0));
    for index in 0..64 {
        let at = 16 + 48 * index;
        let [leaf, subleaf, eax, ebx, ecx, edx] = [0, 4, 24, 28, 32, 36].map(|offset| word(at + offset));
        text += &format!("[    0.5] SEV: index={index:3} fn=0x{leaf:08x} subfn=0x{subleaf:08x}: eax=0x{eax:08x} ebx=0x{ebx:08x} ");
        text += &format!("ecx=0x{ecx:08x} edx=0x{edx:08x} xcr0_in=0x{:016x} xss_in=0x{:016x} ", wide(at + 8), wide(at + 16));
        text += &format!("reserved=0x{:016x}\n", wide(at + 40));
    }
    text + "[    0.6] Memory Encryption Features active: AMD SEV SEV-ES SEV-SNP\n"
}

/// The arrays of libcpuid 0.6.2; it has no row of a state but D.0.
fn libcpuid(entries: &Entries) -> String {
    let mut text = "version=0.6.2\n\n_________________ Logical CPU #0 _________________\n".to_string();
    let mut rows = |array: &str, places: &[(u32, u32)]| {
        for (index, place) in places.iter().enumerate() {
            let [a, b, c, d] = entries.get(place).copied().unwrap_or_default();
            text += &format!("{array}[{index}]={a:08x} {b:08x} {c:08x} {d:08x}\n");
        }
    };
    let up = |first: u32| (0..32).map(|leaf| (first + leaf, 0)).collect::<Vec<_>>();
    rows("basic_cpuid", &up(0));
    rows("ext_cpuid", &up(0x8000_0000));
    rows("intel_fn4", &[(4, 0)]);
    rows("intel_fn11", &[(0xB, 0), (0xB, 1), (0xB, 2), (0xB, 3)]);
    rows("amd_fn8000001dh", &[0, 1, 2, 3].map(|k| (0x8000_001D, k)));
    text
}

/// All kinds that give the shipped table, by name, each with the note that its reading gives.
fn kinds(folder: &Folder) -> Vec<(String, String)> {
    let laid_out = "one page, as QEMU, OVMF and Linux have it: its entries of leaf Dh are laid out on a page 1 of their own";
    let written = |command: &str, name: &str| {
        assert_eq!(run(&[command, EPYC, "-o", &folder.path(name)]).status, 0);
        folder.path(name)
    };
    let one = folder.file("one.page", one_page(&epyc()));
    let note = format!("snp-cpuid: note: {one}: {laid_out}\n");
    let log = folder.file("guest.dmesg", log(&one_page(&epyc())));
    let plain = [written("image", "image"), written("to-kvm", "list"), written("to-dump", "dump"), log];
    plain.map(|file| (file, String::new())).into_iter().chain([(one, note)]).collect()
}

/// What a command says of the shipped pages it says of every other kind, but for where rows stand.
#[test]
fn every_command_reads_every_kind() {
    let folder = Folder::new("inputs");
    let (out, expected_out) = (folder.path("out"), folder.path("expected"));
    for (file, note) in kinds(&folder) {
        for arguments in BUILDING {
            let ran = run(&with_files(arguments, &file, &out));
            let expected = run(&with_files(arguments, EPYC, &expected_out));
            assert_eq!((ran.status, &ran.out), (0, &expected.out), "{arguments:?} {file}: {}", ran.err);
            assert!(ran.err.starts_with(&note), "{}", ran.err);
            if arguments.contains(&"OUT") {
                assert_eq!(fs::read(&out).unwrap(), fs::read(&expected_out).unwrap(), "{arguments:?} {file}");
            }
        }
        for arguments in READING {
            let ran = run(&with_files(arguments, &file, &out));
            assert_eq!(ran.status, 0, "{arguments:?} {file}: {}", ran.err);
            assert!(!ran.text().contains("refused"), "{}", ran.text());
        }
        assert_eq!(run_on(&fs::read(&file).unwrap(), &["table", "-"]).out, run(&["table", EPYC]).out);
    }
}

/// The pages of one page have its entries as they stand: reserved bytes, and the order.
#[test]
fn one_page_is_laid_out_as_two() {
    let folder = Folder::new("inputs_one_page");
    let made = |bytes: &[u8]| {
        let ran = run(&["from-dump", &folder.file("one.page", bytes), "-o", "-"]);
        assert_eq!(ran.status, 0, "{}", ran.err);
        ran.out
    };
    assert_eq!(made(&one_page(&epyc())), set(&epyc()));
    // the log has the same page, so it gives the same pages
    assert_eq!(made(log(&one_page(&epyc())).as_bytes()), set(&epyc()));
    let place = epyc().keys().position(|place| place.0 == 0xD).unwrap();
    let mut old = one_page(&epyc());
    old[16 + 48 * place + 40] = 1;
    assert_eq!(made(&old), unclean(&epyc(), 1, 0, 0));
    assert_eq!(made(log(&old).as_bytes()), unclean(&epyc(), 1, 0, 0));
    // a page without leaf Dh, and one that counts too many, stay as they are
    let others: Entries = epyc().into_iter().filter(|(place, _)| place.0 != 0xD).collect();
    assert_eq!(made(&one_page(&others)), one_page(&others));
    let mut counted = one_page(&epyc());
    counted[0] = 65;
    assert_eq!(made(&counted), counted);
}

/// libcpuid saves no subleaf of Dh but the first: all other rows are there, and the refusal names D.1.
#[test]
fn libcpuid_lacks_states() {
    let folder = Folder::new("inputs_libcpuid");
    let file = folder.file("raw.txt", libcpuid(&epyc()));
    let ran = run(&["table", &file]);
    assert_eq!(ran.status, 1);
    let notes = ran.notes();
    assert_eq!(notes[0], format!("{file}: libcpuid saves no subleaf of leaf Dh but the first"));
    assert_eq!(notes[1], "no entry for 0000000D.1");
    let taken = run(&["from-dump", &file, "-o", &folder.path("out")]);
    assert_eq!(taken.status, 0, "{}", taken.err);
    // leaves above the highest of rows 0 and 80000000 are left out, whatever stands there
    let short = libcpuid(&with(0x8000_0000, 0, 0, |_| 0x8000_0018));
    assert!(run(&["table", &folder.file("raw.txt", short)]).notes()[1].starts_with("no entry for 0000000D.1, 80000019, 8000001A, 8000001D.0, "));
    let two = libcpuid(&epyc()) + &libcpuid(&epyc()).replace("CPU #0", "CPU #1");
    assert!(run(&["table", &folder.file("raw.txt", two)]).notes()[0].ends_with(": it has 2 CPUs, the first is taken"));
    for wrong in ["basic_cpuid[1]=00000001 00000002 00000003", "basic_cpuid[x]=00000000 00000000 00000000 00000000", "vendor=AMD"] {
        let ran = run(&["table", &folder.file("raw.txt", libcpuid(&epyc()) + wrong)]);
        assert!(ran.status == 2 && ran.line().contains(" is no row of libcpuid's and no heading: '"), "{}", ran.err);
    }
}

/// Debian's own `cpuid_tool`, where it is installed (apt-get install cpuidtool): what it saves here is read.
#[test]
fn what_cpuid_tool_saves() {
    let folder = Folder::new("inputs_cpuid_tool");
    let raw = folder.path("raw.txt");
    let Ok(output) = Command::new("cpuid_tool").arg(format!("--save={raw}")).stdin(Stdio::null()).output() else { return };
    if output.status.success() && fs::exists(&raw).unwrap() {
        let ran = run(&["from-dump", &raw, "-o", &folder.path("out")]);
        assert_eq!((ran.status, fs::metadata(folder.path("out")).unwrap().len()), (0, 8192), "{}", ran.err);
    }
}

/// A log of two starts, of a page that was cut off, and without its count.
#[test]
fn logs_that_are_not_whole() {
    let folder = Folder::new("inputs_log");
    let whole = log(&one_page(&epyc()));
    let twice = run(&["table", &folder.file("log", whole.clone() + &log(&one_page(&with(5, 0, 0, |_| 9))))]);
    assert_eq!((twice.status, &twice.out), (0, &run(&["table", EPYC]).out));
    assert!(twice.err.ends_with(": it has the tables of 2 starts, the first is taken\n"), "{}", twice.err);
    let cut: String = whole.lines().take(20).map(|line| format!("{line}\n")).collect();
    let count = epyc().len();
    let ran = run(&["table", &folder.file("log", cut)]);
    assert_eq!((ran.status, ran.line().ends_with(&format!(": has 18 of the {count} entries that its CPUID table counts"))), (2, true), "{}", ran.err);
    let uncounted: String = whole.lines().filter(|line| !line.contains("count=")).map(|line| format!("{line}\n")).collect();
    assert_eq!(run(&["table", &folder.file("log", uncounted)]).out, run(&["table", EPYC]).out);
}

/// Files of other programs are none, and so are bytes without any sense; all of them have status 2, and none is refused.
#[test]
fn what_is_none_is_said_to_be_none() {
    let folder = Folder::new("inputs_none");
    let noise: Vec<u8> = (0u32..8192).map(|i| (i.wrapping_mul(2_654_435_761) >> 13) as u8).collect();
    let own = fs::read(env!("CARGO_BIN_EXE_snp-cpuid")).unwrap();
    for (name, bytes) in [
        ("text", b"A list of things to do\n".to_vec()),
        ("json", b"{\"answer\": \"yes\"}\n".to_vec()),
        ("noise", noise.clone()),
        ("odd", noise[..5000].to_vec()),
        ("program", own[..8192].to_vec()),
        ("png", [b"\x89PNG\r\n\x1a\n\0\0\0\rIHDR".to_vec(), vec![0; 4080]].concat()),
        ("cut", fs::read(EPYC).unwrap()[1..].to_vec()),
    ] {
        let file = folder.file(name, bytes);
        // 'from-dump' names the line, and 'from-kvm' takes bytes for a list that was cut off
        let text = ["text", "json"].contains(&name);
        let asked = |run: &&&[&str]| run[0] != "from-dump" && (text || run[0] != "from-kvm");
        for arguments in BUILDING.iter().chain(READING).filter(asked) {
            let ran = run(&with_files(arguments, &file, &folder.path("out")));
            let line = format!("{file}: no CPUID pages, image, list for KVM, dump or sev=debug log");
            assert_eq!((ran.status, ran.line()), (2, line.as_str()), "{arguments:?}");
        }
    }
    // pages of any content stay pages: empty ones, and those that count too many
    for (bytes, number) in [(vec![0; 4096], 3), (vec![0; 8192], 3), ([&65u32.to_le_bytes()[..], &set(&epyc())[4..]].concat(), 2)] {
        assert!(run(&["table", &folder.file("pages", bytes)]).line().contains(&format!(": refusal {number}: ")));
    }
}

/// 307 rows are three pages long: a list all the same.
#[test]
fn a_list_as_long_as_pages() {
    let folder = Folder::new("inputs_long_list");
    let list = run(&["to-kvm", EPYC, "-o", "-"]).out;
    let empty = [&0x4000_0000u32.to_le_bytes()[..], &[0; 36]].concat();
    let long = [&307u32.to_le_bytes()[..], &[0; 4], &list[8..], &empty.repeat(307 - EPYC_ROWS)].concat();
    assert_eq!(long.len(), 3 * 4096);
    assert_eq!(run(&["table", &folder.file("list", long)]).out, run(&["table", EPYC]).out);
}

/// Whatever stands in a folder, the report is that of its servers, and the rest is named.
#[test]
fn folders_as_they_are() {
    use std::os::unix::fs::symlink;
    use std::os::unix::net::UnixListener;
    let folder = Folder::new("inputs_folder");
    let fleet = folder.path("fleet");
    fs::create_dir_all(format!("{fleet}/below")).unwrap();
    for name in ["a.pages", "below/b.pages"] {
        fs::copy(EPYC, format!("{fleet}/{name}")).unwrap();
    }
    let usual = run(&["fleet", &fleet]);
    assert_eq!(usual.status, 0);
    let at = |name: &str| format!("{fleet}/{name}");
    fs::write(at("README.txt"), "Two servers\n").unwrap();
    fs::write(at("empty"), "").unwrap();
    for (link, to) in [("dangling", "nowhere"), ("loop", "loop"), ("self", "."), ("up", ".."), ("twice", "below")] {
        symlink(to, at(link)).unwrap();
    }
    fs::remove_file(at("up")).unwrap();
    assert!(Command::new("mkfifo").arg(at("pipe")).status().unwrap().success());
    let _socket = UnixListener::bind(at("socket")).unwrap();
    symlink("/dev/zero", at("zero")).unwrap();
    let ran = run(&["fleet", &fleet]);
    assert_eq!((ran.status, ran.err.as_str()), (0, ""));
    let (report, not_read) = ran.text().split_once("\nNot read\n").expect("the part");
    assert_eq!(report, usual.text());
    let told = not_read.split_whitespace().collect::<Vec<_>>().join(" ");
    for (names, why) in [
        (&["pipe"][..], "a pipe"),
        (&["socket"], "a socket"),
        (&["zero"], "a device"),
        (&["self", "twice"], "a folder that was read already"),
        (&["dangling", "loop"], "a link to nothing that can be read"),
        (&["empty"], "it is empty"),
        (&["README.txt"], "no CPUID pages, image, list for KVM, dump or sev=debug log"),
    ] {
        let names = names.iter().map(|name| at(name)).collect::<Vec<_>>().join(" ");
        assert!(told.contains(&format!("{names} {why}")), "{names} {why}\n{told}");
    }
    // a folder without a server
    fs::create_dir(folder.path("none")).unwrap();
    folder.file("none/notes", "nothing");
    let none = run(&["fleet", &folder.path("none")]);
    assert_eq!((none.status, none.line().ends_with(": no server's file in it, and 1 that are none")), (2, true), "{}", none.err);
}
