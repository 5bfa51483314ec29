//! `fleet`: what it tells is counted here from the entries that the tests change; JSON is read by Debian's `jq`.

use crate::answers::{documented, members};
use crate::check::{dump, processor};
use crate::json_text::jq;
use crate::page_sets::{Entries, epyc, rich, set, topology, with, without};
use crate::run::{EPYC, Folder, run, run_on};
use snp_cpuid::{Options, fingerprint};
use std::fs;

/// Entries without a bit of a register; 0 is EAX.
pub fn less(entries: &Entries, leaf: u32, register: usize, bit: u32) -> Entries {
    let mut entries = entries.clone();
    let value = &mut entries.get_mut(&(leaf, 0)).expect("the set has this entry")[register];
    assert_eq!(*value >> bit & 1, 1);
    *value &= !(1 << bit);
    entries
}

/// A server of another stepping.
fn stepping(entries: &Entries) -> Entries {
    let mut entries = entries.clone();
    for leaf in [0x1, 0x8000_0001] {
        entries.get_mut(&(leaf, 0)).unwrap()[0] += 1;
    }
    entries
}

/// Seven accepted servers in five classes of two groups, and two that are refused: FMA is 1.ECX bit 12, SHA 7.0.EBX bit 29.
pub fn small(folder: &Folder) {
    let (fma, sha) = (less(&epyc(), 1, 2, 12), less(&epyc(), 7, 1, 29));
    for (name, entries) in [
        ("a1.pages", epyc()),
        ("a2.pages", epyc()),
        ("b1.pages", fma.clone()),
        ("b2.pages", sha.clone()),
        ("c1.pages", less(&fma, 7, 1, 29)),
        ("d1.pages", stepping(&epyc())),
        ("d2.pages", stepping(&epyc())),
        ("e1.pages", with(0x8000_0008, 0, 1, |ebx| ebx & !8)),
        ("e2.pages", without(0xB, 0)),
    ] {
        folder.file(name, set(&entries));
    }
}

/// The line of a class: the fingerprint is the library's of a file of pages.
fn class(name: &str, file: &str, options: Options, servers: usize, rest: &str) -> String {
    let fingerprint = fingerprint(&fs::read(file).unwrap(), options).unwrap();
    format!("   {name:5}{fingerprint:.8}{servers:>5}  {rest}\n")
}

#[test]
fn a_small_fleet_by_hand() {
    let folder = Folder::new("fleet_small");
    small(&folder);
    let ran = run(&["fleet", &folder.path("")]);
    assert_eq!((ran.status, ran.err.as_str()), (1, ""));
    assert!(ran.text().lines().all(|line| line.len() <= 80), "{}", ran.text());
    let parts: Vec<&str> = ran.text().split("\n\n").collect();
    let line = |name, file, servers, rest| class(name, &folder.path(&format!("{file}.pages")), Options::new(), servers, rest);
    let [a1, a2, a3, a4, b1] = [
        line("A1", "a1", 2, "a1 a2"),
        line("A2", "b1", 1, "b1; without FMA"),
        line("A3", "b2", 1, "b2; without SHA"),
        line("A4", "c1", 1, "c1; without FMA SHA"),
        line("B1", "d1", 2, "d1 d2"),
    ];
    let refused = "\n      INVLPGB (80000008h.EBX bit 3) is required but unavailable\n         with SEV-SNP: e1\n";
    for (part, lines) in [
        (0, &["9 servers: 7 accepted in 5 classes, 2 refused\nedition 1 of the AVX rule, without secure AVIC"][..]),
        (1, &[&a1, &a2, &a3, &a4, b1.trim_end()]),
        (2, &["   A2    to A1; not to A3 and A4 (7.0 EBX SHA)\n", "   A3    to A1; not to A2 and A4 (1 ECX FMA)\n"]),
        (2, &["   A4    to A1, A2 and A3\n", "   A and B: 1 EAX (stepping 1h; stepping 2h), 80000001 EAX (stepping 1h;"]),
        (3, &["   A     5 servers in 4 classes, without FMA SHA\n", "         A2 and A4 (b1 c1) together cost FMA\n"]),
        (4, &["   1 ECX           +   -   +   -   +  FMA\n", "   7.0 EBX         +   +   -   -   +  SHA"]),
        (
            5,
            &[
                "Refused\n   1 server by refusal 3. A list of KVM may lack the topology, ",
                "   1 server by refusal 4. A hypervisor hides INVLPGB",
                refused,
            ],
        ),
        (5, &["\n      no entry for leaf Bh subleaf 0h, which every guest needs\n         with SEV-SNP: e2\n"]),
    ] {
        for line in lines {
            assert!(parts[part].contains(line), "{line}\n{}", ran.text());
        }
    }
    assert_eq!(parts.len(), 6);
}

/// The members of JSON that `jq` finds with a filter.
fn found(folder: &str, filter: &str) -> Option<String> {
    jq(&run(&["fleet", folder, "--json"]).out, filter)
}

#[test]
fn the_same_as_json() {
    let folder = Folder::new("fleet_json");
    small(&folder);
    let path = folder.path("");
    for (filter, expected) in [
        ("[.answer, .edition, .secure_avic, .accepted, .refused, (.servers | length)]", r#"["some refused",1,false,7,2,9]"#),
        ("[.servers[] | .class]", r#"["A1","A1","A2","A3","A4","B1","B1",null,null]"#),
        ("[.servers[7:][] | [.answer, .refusal.number, .refusal.line]]", r#"[["refused",4,"4"],["refused",3,"3 0000000B 0"]]"#),
        ("[.classes[] | .lacks]", r#"[[],["FMA"],["SHA"],["FMA","SHA"],[]]"#),
        ("[.classes[] | .may_go_to]", r#"[[],["A1"],["A1"],["A1","A2","A3"],[]]"#),
        ("[.moves[] | select(.answer == \"yes\") | .from + .to]", r#"["A2A1","A3A1","A4A1","A4A2","A4A3"]"#),
        (
            "[.moves[] | select(.from == \"A1\" and .to == \"A4\") | .leaf, .subleaf, .register, .bits, .lacks]",
            r#"["00000001",null,"ECX",["FMA"],["FMA","SHA"]]"#,
        ),
        ("[.moves[] | select(.to == \"B1\") | .leaf, .register] | unique", r#"["00000001","EAX"]"#),
        (
            "[.pools[] | .classes, .servers, [.costs[] | .cost], [.costs[] | .gives_up], [.lost[] | .name, .lacking]]",
            r#"[["A1","A2","A3","A4"],5,[[],[],[],[]],[2,1,1,0],["FMA",["A2","A4"],"SHA",["A3","A4"]]]"#,
        ),
        ("[.features[] | .name, .classes]", r#"["FMA",["A1","A3","B1"],"SHA",["A1","A2","B1"]]"#),
        (
            "[.apart[] | .leaf, .register, (.values | map(.value))]",
            r#"["00000001","EAX",["00A00F11","00A00F12"],"80000001","EAX",["00A00F11","00A00F12"]]"#,
        ),
    ] {
        if let Some(read) = found(&path, filter) {
            assert_eq!(read, expected, "{filter}");
        }
    }
}

/// Every object has the members that docs/COMMAND.md gives it.
#[test]
fn shapes_are_documented() {
    let folder = Folder::new("fleet_shapes");
    small(&folder);
    folder.file("notes", "nothing");
    folder.file("v1", "CPU 0:\n   0x00000005 0x00: eax=0x1 ebx=0x2 ecx=0x3 edx=0x4\nx\n");
    folder.file("u1.pages", set(&with(7, 0, 1, |ebx| ebx | 1 << 16)));
    folder.file("t1.pages", set(&stepping(&less(&with(7, 0, 1, |ebx| ebx | 1 << 16), 1, 2, 12))));
    let out = run(&["fleet", &folder.path(""), "--json"]).out;
    if jq(&out, ".").is_none() {
        return;
    }
    for (filter, shape) in [
        (".", "fleet"),
        (".servers[0]", "a server of a fleet"),
        (".servers[] | select(.why)", "a server of a fleet"),
        (".servers[] | select(.refusal.number == 4)", "a server of a fleet"),
        (".servers[] | select(.refusal.number == 4) | .refusal", "a refusal"),
        (".groups[0]", "a group"),
        (".classes[0]", "a class"),
        (".moves[0]", "a move"),
        (".pools[0]", "a pool of a fleet"),
        (".pools[0].costs[0]", "a cost"),
        (".pools[0].lost[0]", "a lost bit"),
        (".features[0]", "a feature that differs"),
        (".apart[0]", "a register that keeps groups apart"),
        (".not_read[0]", "a file that is not read"),
        (".unpromised[0]", "a move that is not promised"),
        (".unlike[0]", "a server unlike the first of its class"),
    ] {
        assert_eq!(members(&out, filter), documented(shape), "{filter}");
    }
    assert_eq!(jq(&out, ".unlike | map(.server)").unwrap(), r#"["u1"]"#);
}

/// Pages, their image, a list for KVM and a dump are one class; a file of anything else is not read, and the others are.
#[test]
fn every_kind_of_file() {
    let folder = Folder::new("fleet_kinds");
    fs::copy(EPYC, folder.path("a.pages")).unwrap();
    for (command, file) in [("image", "b.image"), ("to-kvm", "c.list"), ("to-dump", "d.dump")] {
        assert_eq!(run(&[command, EPYC, "-o", &folder.path(file)]).status, 0);
    }
    let ran = run(&["fleet", &folder.path("")]);
    assert_eq!((ran.status, ran.err.as_str()), (0, ""));
    assert!(ran.text().starts_with("4 servers: all accepted, with one table\n"), "{}", ran.text());
    assert!(ran.text().contains(&class("A1", EPYC, Options::new(), 4, "a b c d")));
    if let Some(kinds) = found(&folder.path(""), "[.servers[] | .kind]") {
        assert_eq!(kinds, r#"["pages","image","list","dump"]"#);
    }
    // a pool's image is an image too
    folder.file("e.pages", set(&less(&epyc(), 1, 2, 12)));
    assert_eq!(run(&["pool", EPYC, &folder.path("e.pages"), "-o", &folder.path("f.image")]).status, 0);
    assert!(run(&["fleet", &folder.path("")]).text().contains(&class("A2", &folder.path("e.pages"), Options::new(), 2, "e f; without FMA")));
    // an image is a table that is made, under whichever edition: that of a server without YMM state keeps F16C under the other
    let mut none = rich();
    none.get_mut(&(0xD, 0)).unwrap()[0] = 3;
    let (pages, image) = (folder.file("g.pages", set(&none)), folder.path("h.image"));
    assert_eq!(run(&["image", &pages, "-o", &image]).status, 0);
    assert_eq!(run(&["fleet", &pages, &image]).status, 0);
    let other = run(&["fleet", &pages, &image, "--edition", "2"]);
    assert_eq!(other.status, 0);
    let of = |name, edition, rest| class(name, &pages, Options::new().edition(edition), 1, rest);
    assert!(other.text().contains(&(of("A1", 1, "h") + &of("A2", 2, "g; without F16C XOP FMA4"))), "{}", other.text());
    // what is named must be a server's; a damaged one is one of which nothing is known
    for (name, bytes, why) in [("notes.txt", "nothing\n", "no CPUID pages, image, list for KVM, dump or sev=debug log"), ("empty", "", "it is empty")]
    {
        let file = folder.file(name, bytes);
        let ran = run(&["fleet", EPYC, &file]);
        assert_eq!((ran.status, ran.line()), (2, format!("{file}: {why}").as_str()));
    }
    let damaged = folder.file("damaged", "CPU 0:\n   0x00000005 0x00: eax=0x1 ebx=0x2 ecx=0x3 edx=0x4\nx\n");
    let ran = run(&["fleet", EPYC, &damaged]);
    let told = "Not read\n   damaged\n      line 3 is no CPUID row and no heading: 'x'\n";
    assert_eq!((ran.status, ran.text().contains(told)), (1, true), "{}", ran.text());
}

/// The report is that of the servers, not of the order in which they are named. A hidden file is none of them.
#[test]
fn the_order_of_files_does_not_matter() {
    let folder = Folder::new("fleet_order");
    small(&folder);
    folder.file(".hidden", "not read");
    let whole = run(&["fleet", &folder.path("")]);
    let mut files: Vec<String> = folder.names().iter().filter(|name| !name.starts_with('.')).map(|name| folder.path(name)).collect();
    let one_by_one = |files: &[String]| run(&[&["fleet".to_string()], files].concat());
    assert_eq!(one_by_one(&files), whole);
    files.reverse();
    assert_eq!(one_by_one(&files), whole);
    // folders in it are read too
    fs::create_dir(folder.path("below")).unwrap();
    fs::rename(folder.path("a1.pages"), folder.path("below/a1.pages")).unwrap();
    assert_eq!(run(&["fleet", &folder.path("")]).text(), whole.text());
    // where two files have one name, they are called by their paths
    fs::copy(folder.path("a2.pages"), folder.path("below/a2.pages")).unwrap();
    assert!(run(&["fleet", &folder.path("")]).text().contains("below/a2.pages"));
}

/// Twenty classes, each without another feature, are one pool: more than the library takes at once.
#[test]
fn a_pool_of_twenty_classes() {
    let folder = Folder::new("fleet_twenty");
    let bits =
        [0, 1, 9, 12, 13, 19, 20, 22, 23, 25, 30].map(|bit| (1, 2, bit)).into_iter().chain([0, 3, 8, 9, 18, 19, 23, 24, 29].map(|bit| (7, 1, bit)));
    let mut all = epyc();
    for (place, (leaf, register, bit)) in bits.enumerate() {
        folder.file(&format!("{place:02}.pages"), set(&less(&epyc(), leaf, register, bit)));
        all = less(&all, leaf, register, bit);
    }
    let path = folder.path("");
    let ran = run(&["fleet", &path]);
    assert_eq!(ran.status, 0);
    assert!(ran.text().starts_with("20 servers: all accepted, in 20 classes\n"));
    assert!(ran.text().contains("   A     20 servers in 20 classes, without SSE3 PCLMULQDQ SSSE3 FMA CMPXCHG16B"), "{}", ran.text());
    for (filter, expected) in [
        (
            "[.pools[] | (.classes | length), .servers, (.lost | length), ([.costs[] | .cost | length] | unique), ([.costs[] | .gives_up] | unique)]",
            "[20,20,20,[1],[19]]",
        ),
        ("[.moves[] | select(.answer == \"yes\")] | length", "0"),
    ] {
        if let Some(read) = found(&path, filter) {
            assert_eq!(read, expected, "{filter}");
        }
    }
    // as it is told: sixteen, then the image of these with the others
    let (first, rest): (Vec<_>, Vec<_>) =
        folder.names().into_iter().map(|name| folder.path(&name)).partition(|path| path.as_str() < folder.path("16").as_str());
    assert_eq!((first.len(), rest.len()), (16, 4));
    let out = Folder::new("fleet_twenty_images");
    let pooled = |files: &[String], image: &str| {
        assert_eq!(run(&[&["pool".to_string()], files, &["-o".to_string(), out.path(image)]].concat()).status, 0);
        out.path(image)
    };
    let image = pooled(&[vec![pooled(&first, "first")], rest].concat(), "second");
    // a server with just what all have is below them all, and costs nothing more
    let least = folder.file("20.pages", set(&all));
    assert_eq!(fs::read(image).unwrap(), run(&["image", &least, "-o", "-"]).out);
    assert!(run(&["fleet", &path]).text().contains("   A21   to A1, A2, A3, A4, A5, A6, A7, A8 and 12 more\n"));
    if let Some(read) = found(&path, "[.pools[] | (.classes | length), ([.lost[] | .lacking | length] | unique), .costs[20].gives_up]") {
        assert_eq!(read, "[21,[2],0]");
    }
}

/// Two sizes of a state do not pool, and a server without that state pools with each: two pools, or one of all where it comes first.
#[test]
fn a_class_without_a_state_joins_the_others() {
    let folder = Folder::new("fleet_states");
    let size = |size| {
        let mut entries = rich();
        entries.get_mut(&(0xD, 7)).unwrap()[0] = size;
        entries
    };
    folder.file("a.pages", set(&size(1024)));
    folder.file("b.pages", set(&size(1000)));
    let two = run(&["fleet", &folder.path("")]);
    // 1408 + 1000 bytes are less than 1408 + 1024: a guest of A1 would find room, but not the row of its state
    let moves = "   A1    to no other class; not to A2 (D.7 EAX)\n   A2    to no other class; not to A1 (save area)\n";
    assert!(two.text().contains(moves), "{}", two.text());
    assert!(!two.text().contains("Pools"));
    let mut poor = rich();
    poor.get_mut(&(0xD, 0)).unwrap()[0] = 7;
    folder.file("c.pages", set(&poor));
    if let Some(read) = found(&folder.path(""), "[.pools[] | .servers, .save_area_bytes]") {
        assert_eq!(read, "[3,832]");
    }
}

/// The comparison of pages asks more: AVX512F, bit 16 of 7.0.EBX, which no table shows without its states.
#[test]
fn what_pages_do_not_promise_is_a_note() {
    let folder = Folder::new("fleet_note");
    let (a, b) = (folder.file("a.pages", set(&with(7, 0, 1, |ebx| ebx | 1 << 16))), folder.file("b.pages", set(&epyc())));
    assert!(run(&["compare", &a, &b]).text().contains("A to B  no: "));
    let same = run(&["fleet", &a, &b]);
    assert!(same.text().starts_with("2 servers: all accepted, with one table\n"));
    assert!(same.text().ends_with("   from the first server of the class, or to it: b (7.0 EBX)\n"), "{}", same.text());
    let c = folder.file("c.pages", set(&less(&with(7, 0, 1, |ebx| ebx | 1 << 16), 1, 2, 12)));
    let other = run(&["fleet", &c, &b]);
    assert!(other.text().contains("   A2    to A1\n") && other.text().ends_with("   from class to class: A2 to A1 (7.0 EBX)\n"), "{}", other.text());
    assert!(!run(&["fleet", &b, &b]).text().contains("Note"));
}

#[test]
fn options_reach_the_library() {
    let folder = Folder::new("fleet_options");
    let mut off = rich();
    off.get_mut(&(0x8000_001F, 0)).unwrap()[0] &= !(1 << 26);
    let files = [folder.file("a", set(&rich())), folder.file("b", set(&off))];
    let ran = |words: &[&str]| run(&[&["fleet", &files[0], &files[1]], words].concat());
    assert!(ran(&[]).text().starts_with("2 servers: all accepted, with one table\n"));
    let kept = ran(&["--secure-avic"]);
    assert!(kept.text().starts_with("2 servers: all accepted, in 2 classes\nedition 1 of the AVX rule, with secure AVIC\n"));
    assert!(kept.text().contains(&class("A2", &files[1], Options::new().secure_avic(true), 1, "b; without SecureAvic")));
    let third = ran(&["--edition", "3"]);
    assert_eq!((third.status, third.text().starts_with("2 servers: all refused\n")), (1, true));
}

/// Hyperthreading is no feature: servers with and without it are in two groups. With s from 8 on it is not compared with the counts.
#[test]
fn hyperthreading_keeps_groups_apart() {
    let folder = Folder::new("fleet_htt");
    for (name, mt) in [("a", 1), ("b", 0)] {
        let mut entries = epyc();
        topology(&mut entries, 8, 127, 128, mt, 1);
        folder.file(name, set(&entries));
    }
    let ran = run(&["fleet", &folder.path("")]);
    let apart = "   A and B: 1 EDX (HTT clear; HTT set)\n";
    assert!(ran.text().contains(apart) && ran.text().contains("  HTT\n"), "{}", ran.text());
    assert!(!ran.text().contains("Pools"));
}

#[test]
fn standard_input_and_bad_usage() {
    let piped = run_on(&fs::read(EPYC).unwrap(), &["fleet", "-", EPYC]);
    let line = class("A1", EPYC, Options::new(), 2, "epyc-milan standard input");
    assert_eq!((piped.status, piped.text().contains(&line)), (0, true), "{}", piped.text());
    let help = "(see 'snp-cpuid fleet --help')";
    for (arguments, words) in [
        (&["fleet"][..], format!("fleet: PAGES is missing {help}")),
        (&["fleet", "-", "-"], format!("fleet: standard input can be one file only {help}")),
        (&["fleet", EPYC, "--html", "-", "--json"], format!("fleet: --html - and --json both go to standard output {help}")),
        (&["fleet", EPYC, "no-such-file"], "no-such-file: no such file or directory".into()),
        (&["fleet", EPYC, "/dev/zero"], "/dev/zero: longer than 64 MiB".into()),
    ] {
        let ran = run(arguments);
        assert_eq!((ran.status, ran.line()), (2, words.as_str()));
    }
    let folder = Folder::new("fleet_empty");
    let ran = run(&["fleet", &folder.path("")]);
    assert_eq!((ran.status, ran.line().ends_with(": no server's file in it")), (2, true));
}

/// One server, dumped inside its guest on several processors in several states: as they stand two groups and more, with --view one class.
#[test]
fn views_of_one_table_are_one_class() {
    let folder = Folder::new("fleet_views");
    let table = snp_cpuid::build(&set(&epyc()), Options::new()).unwrap();
    for (name, x2apic, xcr0, xss) in [("a", 0, 7, 0x800), ("b", 5, 7, 0x800), ("c", 5, 3, 0)] {
        folder.file(&format!("{name}.dump"), dump(&table, &[processor(x2apic, xcr0, xss, true)]));
    }
    let plain = run(&["fleet", &folder.path("")]);
    assert!(plain.text().starts_with("3 servers: all accepted, in 3 classes\n"), "{}", plain.text());
    let ran = run(&["fleet", &folder.path(""), "--view"]);
    assert!(
        ran.text().starts_with("3 servers: all accepted, with one table\n") && ran.text().contains(", tables as processor 0 sees them\n"),
        "{}",
        ran.text()
    );
    // a server that differs still does
    folder.file("d.pages", set(&less(&epyc(), 1, 2, 12)));
    assert!(run(&["fleet", &folder.path(""), "--view"]).text().contains("  d; without FMA\n"));
}
