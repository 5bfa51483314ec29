//! `diff`: what two servers report, side by side; each difference is made here, by changing one register.

use crate::answers::{documented, members};
use crate::json_text::jq;
use crate::page_sets::{Entries, epyc, rich, set, with, without};
use crate::run::{EPYC, Folder, Ran, run};

/// The lines under the heads of the two servers.
fn differences(folder: &Folder, a: &Entries, b: &Entries) -> (i32, String) {
    let ran: Ran = run(&["diff", &folder.file("a", set(a)), &folder.file("b", set(b))]);
    assert_eq!(ran.err, "");
    let (heads, lines) = ran.text().split_once("\n\n").expect("heads and differences");
    assert!(heads.starts_with(&format!("A  {} (pages): ", folder.path("a"))), "{heads}");
    assert!(ran.text().lines().all(|line| line.len() <= 100 && line.is_ascii()));
    (ran.status, lines.to_string())
}

#[test]
fn each_kind_of_difference_in_words() {
    let folder = Folder::new("diff_words");
    for (b, status, expected) in [
        (epyc(), 0, "The entries are equal.\n"),
        (
            with(1, 0, 2, |ecx| ecx & !(1 << 12)),
            1,
            "00000001    ECX  FMA: A has it, B has not [table, move from A to B, arithmetic (libm, libmvec)]\n",
        ),
        (with(1, 0, 2, |ecx| ecx & !(1 << 22)), 1, "00000001    ECX  MOVBE: A has it, B has not [table, move from A to B]\n"),
        (with(0x8000_0001, 0, 2, |ecx| ecx | 1 << 11), 1, "80000001    ECX  XOP: B has it, A has not [table, move from B to A]\n"),
        (with(1, 0, 3, |edx| edx & !(1 << 28)), 1, "00000001    EDX  HTT: A has it, B has not [table, move]\n"),
        (with(1, 0, 0, |eax| eax + 1), 1, "00000001    EAX [table, move]\n    A  stepping 1h\n    B  stepping 2h\n"),
        (with(1, 0, 1, |ebx| ebx | 5 << 24), 1, "00000001    EBX [table, move]\n    A  initial APIC id 0\n    B  initial APIC id 5\n"),
        (
            with(0x8000_0002, 0, 1, |ebx| ebx ^ 0x20),
            1,
            "processor name [table, move]\n    A  \"AMD EPYC 7713 64-Core Processor                \"\n    \
             B  \"AMD ePYC 7713 64-Core Processor                \"\n",
        ),
        (
            with(0x8000_001D, 3, 0, |eax| eax - (8 << 14)),
            1,
            "8000001D.3  EAX [table, move]\n    A  shared by 16 threads\n    B  shared by 8 threads\n",
        ),
        (with(0xB, 1, 3, |_| 7), 0, "0000000B.1  EDX, x2APIC number [no table]\n    A  00000000\n    B  00000007\n"),
        (without(0x8000_001A, 0), 1, "8000001A    an entry of A alone [table, move]\n"),
        (without(0xD, 2), 1, "0000000D.2  an entry of A alone [table, move from A to B]\n"),
        (without(0xD, 9), 0, "0000000D.9  an entry of A alone [no table]\n"),
        // BTC_NO is in every table
        (with(0x8000_0008, 0, 1, |ebx| ebx ^ 1 << 29), 0, "80000008    EBX  BTC_NO: B has it, A has not [no table]\n"),
        // bit 15 of 1.ECX has no name, and no table shows it
        (
            with(1, 0, 2, |ecx| ecx ^ 1 << 15),
            0,
            "00000001    ECX [no table]\n    A  00000000 in bits without a name\n    B  00008000 in bits without a name\n",
        ),
    ] {
        assert_eq!(differences(&folder, &epyc(), &b), (status, expected.to_string()));
    }
    // the other way round
    let (_, turned) = differences(&folder, &with(1, 0, 2, |ecx| ecx & !(1 << 12)), &epyc());
    assert_eq!(turned, "00000001    ECX  FMA: B has it, A has not [table, move from B to A, arithmetic (libm, libmvec)]\n");
}

/// Servers that are refused are shown too, also beside themselves, and of any kind of file.
#[test]
fn refused_servers_and_other_files() {
    let folder = Folder::new("diff_refused");
    let refused = folder.file("refused", set(&with(0x8000_0008, 0, 1, |ebx| ebx & !8)));
    let same = run(&["diff", &refused, &refused]);
    assert_eq!((same.status, same.text().ends_with("\n\nThe entries are equal.\n")), (0, true));
    assert!(same.text().starts_with(&format!("A  {refused} (pages): refusal 4: ")), "{}", same.text());
    let other = run(&["diff", EPYC, &refused]);
    assert!(
        other.status == 1 && other.text().ends_with("80000008    EBX  INVLPGB: A has it, B has not [table, move from A to B]\n"),
        "{}",
        other.text()
    );
    let dump = folder.path("dump");
    assert_eq!(run(&["to-dump", &refused, "-o", &dump]).status, 0);
    assert_eq!(run(&["diff", &refused, &dump]).status, 0);
    let image = folder.path("image");
    assert_eq!(run(&["image", EPYC, "-o", &image]).status, 0);
    assert_eq!(run(&["diff", &image, &image]).status, 0);
    for arguments in [&["diff", "-", "-"][..], &["diff", EPYC], &["diff", EPYC, "no-such-file"]] {
        assert_eq!(run(arguments).status, 2);
    }
}

/// What a difference matters to is what `compare` says of the two tables: a bit, register or row in the way of one direction.
#[test]
fn a_move_is_in_the_way_where_compare_says_no() {
    let folder = Folder::new("diff_compare");
    let shapes = [with(1, 0, 2, |ecx| ecx & !(1 << 12)), with(5, 0, 0, |_| 9), with(1, 0, 0, |eax| eax + 1), with(0xB, 1, 3, |_| 7), rich()];
    for a in &shapes {
        for b in &shapes {
            let (_, lines) = differences(&folder, a, b);
            let compared = run(&["compare", &folder.path("a"), &folder.path("b")]);
            let in_the_way = lines.contains("move]") || lines.contains("move,") || lines.contains("move from A to B");
            assert_eq!(compared.status == 1, in_the_way, "{lines}{}", compared.text());
        }
    }
}

#[test]
fn shapes_are_documented() {
    let folder = Folder::new("diff_json");
    let mut other = with(1, 0, 2, |ecx| ecx & !(1 << 12));
    other.get_mut(&(5, 0)).unwrap()[0] = 9;
    other.get_mut(&(0x8000_0002, 0)).unwrap()[0] = 9;
    other.remove(&(0xD, 9));
    let out = run(&["diff", EPYC, &folder.file("b", set(&other)), "--json"]).out;
    if jq(&out, ".").is_none() {
        return;
    }
    for (filter, shape) in [
        (".", "diff"),
        (".differences[] | select(.bit)", "a difference of entries in a feature bit"),
        (".differences[] | select(.leaf == \"00000005\")", "a difference of entries in another register"),
        (".differences[] | select(.leaf == \"80000002\")", "a difference of processors' names"),
        (".differences[] | select(.entry_of)", "an entry that one has alone"),
    ] {
        assert_eq!(members(&out, filter), documented(shape), "{filter}");
    }
    let read = jq(&out, "[.answer, (.differences[0] | .name, .a, .b, .table, .in_the_way_a_to_b, .in_the_way_b_to_a, .libraries)]").unwrap();
    assert_eq!(read, r#"["differ","FMA",true,false,true,true,false,["libm","libmvec"]]"#);
}
