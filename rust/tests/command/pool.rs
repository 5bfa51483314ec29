//! `pool`: document 02, P12. Costs are counted here from the entries that the tests change.

use crate::page_sets::{Entries, epyc, rich, set, with, without};
use crate::run::{EPYC, Folder, Ran, run, run_on};
use snp_cpuid::MOST_SERVERS;
use std::fs;

fn note(text: &str) -> String {
    format!("snp-cpuid: note: {text}\n")
}

/// The shipped set without a bit of a register; 0 is EAX.
fn less(leaf: u32, subleaf: u32, register: usize, bit: u32) -> Vec<u8> {
    set(&with(leaf, subleaf, register, |old| {
        assert_eq!(old >> bit & 1, 1);
        old & !(1 << bit)
    }))
}

/// Files with these sets, under the names that their places give them.
fn files(folder: &Folder, sets: &[Vec<u8>]) -> Vec<String> {
    sets.iter().enumerate().map(|(place, pages)| folder.file(&format!("server-{place}"), pages)).collect()
}

fn pooled(files: &[String], words: &[&str]) -> Ran {
    let files: Vec<&str> = files.iter().map(String::as_str).collect();
    run(&[&["pool"], &files[..], words].concat())
}

/// The image that a run wrote to a file, with its notes.
fn written(folder: &Folder, files: &[String], words: &[&str]) -> (String, Vec<u8>) {
    let out = folder.path("out");
    let _ = fs::remove_file(&out);
    let ran = pooled(files, &[&["-o", out.as_str()], words].concat());
    assert_eq!((ran.status, ran.text()), (0, ""), "{}", ran.err);
    (ran.err, fs::read(out).expect("an image"))
}

fn image(file: &str, words: &[&str]) -> Vec<u8> {
    run(&[&["image", file, "-o", "-"], words].concat()).out
}

/// The note under a written table.
fn fingerprint(image: &[u8]) -> String {
    note(&format!("fingerprint {}", snp_cpuid::Table::try_from(image).unwrap().fingerprint()))
}

#[test]
fn what_each_server_cost() {
    let folder = Folder::new("pool_cost");
    // FMA; RDSEED and, besides, MOVBE, which the fourth lacks too
    let mut third = with(7, 0, 1, |ebx| ebx & !(1 << 18));
    third.get_mut(&(1, 0)).unwrap()[2] &= !(1 << 22);
    let sets = [set(&epyc()), less(1, 0, 2, 12), set(&third), less(1, 0, 2, 22)];
    let files = files(&folder, &sets);
    let (notes, bytes) = written(&folder, &files, &[]);
    let costs = ["no feature bit", "FMA (00000001 ECX)", "RDSEED (00000007.0 EBX)", "no feature bit"];
    let mut expected: String = files.iter().zip(costs).map(|(file, cost)| note(&format!("{file} cost the pool {cost}"))).collect();
    expected += &note(&format!("{} and {} lack MOVBE (00000001 ECX)", files[2], files[3]));
    assert_eq!(notes, expected.clone() + &fingerprint(&bytes));

    // the image is that of one server with the bits that all four have
    let mut joined = third;
    joined.get_mut(&(1, 0)).unwrap()[2] &= !(1 << 12);
    assert_eq!(bytes, image(&folder.file("joined", set(&joined)), &[]));
    // without -o the same notes, and the table as `table` prints it
    let ran = pooled(&files, &[]);
    assert_eq!((ran.status, ran.text(), &ran.err), (0, run(&["table", &folder.path("joined")]).text(), &expected));
}

/// Bits are the tables': where a server's state is missing, so are the features that hang on it.
#[test]
fn costs_are_those_of_tables() {
    let folder = Folder::new("pool_tables");
    let mut none = rich();
    none.get_mut(&(0xD, 0)).unwrap()[0] = 3;
    let files = files(&folder, &[set(&rich()), set(&none)]);
    for (edition, ecx, extended) in [("1", "FMA AVX", ""), ("2", "FMA AVX F16C", ", XOP FMA4 (80000001 ECX)")] {
        let (notes, bytes) = written(&folder, &files, &["--edition", edition]);
        let cost = format!(
            "{ecx} (00000001 ECX), \
             AVX2 AVX512F AVX512DQ AVX512_IFMA AVX512CD AVX512BW AVX512VL (00000007.0 EBX), \
             AVX512_VBMI AVX512_VBMI2 GFNI VAES VPCLMULQDQ AVX512_VNNI AVX512_BITALG AVX512_VPOPCNTDQ (00000007.0 ECX), \
             AVX512_VP2INTERSECT AVX512_FP16 (00000007.0 EDX), AVX opmask ZMM_Hi256 Hi16_ZMM (0000000D.0 EAX){extended}"
        );
        let costs = note(&format!("{} cost the pool no feature bit", files[0])) + &note(&format!("{} cost the pool {cost}", files[1]));
        assert_eq!(notes, costs + &fingerprint(&bytes));
        assert_eq!(bytes, image(&files[1], &["--edition", edition]));
    }
}

#[test]
fn secure_avic_origins_and_standard_output() {
    let folder = Folder::new("pool_options");
    let mut off = rich();
    off.get_mut(&(0x8000_001F, 0)).unwrap()[0] &= !(1 << 26);
    let files = files(&folder, &[set(&rich()), set(&off)]);
    assert!(!written(&folder, &files, &[]).0.contains("SecureAvic"));
    let (notes, bytes) = written(&folder, &files, &["--secure-avic"]);
    let cost = note(&format!("{} cost the pool SecureAvic (8000001F EAX)", files[1]));
    assert!(notes.ends_with(&(cost + &fingerprint(&bytes))), "{notes}");
    assert_eq!(bytes, image(&files[1], &["--secure-avic"]));
    assert_eq!(pooled(&files, &["--secure-avic", "-o", "-"]).out, bytes);
    // standard input may be any one of the servers
    let second = run_on(&set(&off), &["pool", &files[0], "-", "-o", "-", "--secure-avic"]);
    assert_eq!((second.status, &second.out), (0, &bytes));
    assert!(second.err.ends_with(&(note("standard input cost the pool SecureAvic (8000001F EAX)") + &fingerprint(&bytes))), "{}", second.err);

    // rows are where the first server has them
    let moved = folder.file("moved", [vec![0; 4096], set(&off)[4096..].to_vec(), set(&off)[..4096].to_vec()].concat());
    for (servers, first) in [([&files[1], &moved], &files[1]), ([&moved, &files[1]], &moved)] {
        let table = pooled(&servers.map(String::clone), &["--origins"]);
        assert_eq!((table.status, table.text()), (0, run(&["table", first, "--origins"]).text()));
    }
}

/// 18, then a server's own refusal under its file's name, then 19; with `--line` on standard output too, and nothing written.
#[test]
fn refusals_in_their_order() {
    let folder = Folder::new("pool_refused");
    let unlike = folder.file("unlike", set(&with(5, 0, 0, |eax| eax + 1)));
    let wrong = folder.file("wrong", set(&without(0xD, 2)));
    let epyc = EPYC.to_string();
    let sets = format!("the pool: refusal 18: a pool has 2 to {MOST_SERVERS} page sets, and their lengths sum to the bytes handed over");
    let differ = "the pool: refusal 19: the servers of the pool differ, in a row that all their tables have, elsewhere than in feature bits or the \
                  size of the save area"
        .to_string();
    let own = "refusal 3: no entry for leaf Dh subleaf 2h on page 1, where the entries of Dh must stand";
    let own = format!("{wrong}: {own}");
    for (servers, line, words) in [
        (vec![wrong.clone()], "18", &sets),
        (vec![wrong.clone(); MOST_SERVERS + 1], "3 0000000D 2", &own),
        ([vec![epyc.clone(); MOST_SERVERS + 1], vec![unlike.clone(), wrong.clone()]].concat(), "3 0000000D 2", &own),
        ([vec![epyc.clone(); MOST_SERVERS + 1], vec![unlike.clone()]].concat(), "19", &differ),
        (vec![epyc.clone(), wrong.clone()], "3 0000000D 2", &own),
        (vec![epyc.clone(), unlike.clone(), wrong.clone()], "3 0000000D 2", &own),
        ([vec![epyc.clone(); MOST_SERVERS - 1], vec![wrong.clone()]].concat(), "3 0000000D 2", &own),
        (vec![epyc.clone(), unlike.clone()], "19", &differ),
        (vec![unlike.clone(), epyc.clone(), epyc.clone()], "19", &differ),
    ] {
        for words_given in [&[][..], &["-o", &folder.path("out")]] {
            let ran = pooled(&servers, words_given);
            assert_eq!((ran.status, ran.line()), (1, words.as_str()));
            let told = pooled(&servers, &[words_given, &["--line"]].concat());
            assert_eq!((told.status, told.text(), &told.err), (1, format!("{line}\n").as_str(), &ran.err));
        }
    }
    // the edition before a server's own, under the first file's name
    let ran = pooled(&[epyc, wrong], &["--edition", "3"]);
    assert_eq!((ran.status, ran.line()), (1, format!("{EPYC}: refusal 15: the AVX rule has no such edition: it has editions 1 and 2").as_str()));
    assert_eq!(folder.names(), ["unlike", "wrong"]);
}

#[test]
fn servers_of_one_kind_cost_nothing() {
    let folder = Folder::new("pool_one_kind");
    let (notes, bytes) = written(&folder, &vec![EPYC.to_string(); MOST_SERVERS], &[]);
    assert_eq!(notes, note(&format!("{EPYC} cost the pool no feature bit")).repeat(MOST_SERVERS) + &fingerprint(&bytes));
    assert_eq!(bytes, fs::read("../crates/snp_cpuid_image/stdout").unwrap());
}

#[test]
fn bad_usage() {
    let help = "(see 'snp-cpuid pool --help')";
    for (arguments, words) in [
        (&["pool"][..], "pool: PAGES is missing"),
        (&["pool", "-o", "x"], "pool: PAGES is missing"),
        (&["pool", "-", EPYC, "-"], "pool: standard input can be one file only"),
        (&["pool", EPYC, EPYC, "-o"], "pool: -o needs a file name"),
        (&["pool", EPYC, EPYC, "--enforce"], "pool: no option '--enforce'"),
        (&["pool", EPYC, EPYC, "--edition", "one"], "pool: --edition 'one' is no decimal number of up to 32 bits"),
    ] {
        let ran = run(arguments);
        assert_eq!((ran.status, ran.line()), (2, format!("{words} {help}").as_str()));
    }
    let ran = run(&["pool", EPYC, "no-such-file", EPYC]);
    assert_eq!((ran.status, ran.line()), (2, "no-such-file: no such file or directory"));
}

/// A third server may lift a 19: a row in which two differ is no row of the pool's then.
#[test]
fn lifted_by_a_third_server() {
    let folder = Folder::new("pool_lifted");
    let size = |size| {
        let mut entries: Entries = rich();
        entries.get_mut(&(0xD, 7)).unwrap()[0] = size;
        set(&entries)
    };
    let mut poor = rich();
    poor.get_mut(&(0xD, 0)).unwrap()[0] = 7;
    let files = files(&folder, &[size(1024), size(1000), set(&poor)]);
    assert!(pooled(&files[..2], &[]).line().starts_with("the pool: refusal 19: "));
    let (_, bytes) = written(&folder, &files, &[]);
    assert_eq!(bytes, image(&files[2], &[]));
}

/// More servers than the library takes at once: the pool of all is the table of a server with just what all have. Two that differ in the row of a
/// state join once one without the state has, in whichever order they are named.
#[test]
fn more_than_sixteen_servers() {
    let folder = Folder::new("pool_many");
    let bits =
        [0, 1, 9, 12, 13, 19, 20, 22, 23, 25, 30].map(|bit| (1, 2, bit)).into_iter().chain([0, 3, 8, 9, 18, 19, 23, 24, 29].map(|bit| (7, 1, bit)));
    let mut least = epyc();
    let mut servers = vec![];
    for (place, (leaf, register, bit)) in bits.enumerate() {
        servers.push(folder.file(&format!("{place:02}"), set(&with(leaf, 0, register, |value| value & !(1 << bit)))));
        least.get_mut(&(leaf, 0)).unwrap()[register] &= !(1 << bit);
    }
    let expected = run(&["image", &folder.file("least", set(&least)), "-o", "-"]).out;
    let ran = pooled(&servers, &["-o", "-"]);
    assert_eq!((ran.status, &ran.out), (0, &expected), "{}", ran.err);
    assert_eq!(ran.notes()[0], format!("{} cost the pool SSE3 (00000001 ECX)", servers[0]));
    servers.reverse();
    assert_eq!(pooled(&servers, &["-o", "-"]).out, expected);
    // two sizes of a state, and at last a server without it
    let sized = |name: &str, xfem: u32, size: u32| {
        let mut entries = rich();
        entries.get_mut(&(0xD, 0)).unwrap()[0] = xfem;
        entries.get_mut(&(0xD, 7)).unwrap()[0] = size;
        folder.file(name, set(&entries))
    };
    let (a, b, c) = (sized("a", 0xE7, 1024), sized("b", 0xE7, 1000), sized("c", 7, 1024));
    let small = pooled(&[a.clone(), b.clone(), c.clone()], &["-o", "-"]);
    assert_eq!(small.status, 0, "{}", small.err);
    let large = pooled(&[vec![a.clone(); MOST_SERVERS - 1], vec![b; MOST_SERVERS - 1], vec![c]].concat(), &["-o", "-"]);
    assert_eq!((large.status, large.out), (0, small.out), "{}", large.err);
}
