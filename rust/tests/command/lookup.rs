//! `lookup`, by document 01's `leaf_result_ref`.

use crate::run::{EPYC, Folder, run};

fn row(text: &str) -> &str {
    text.lines().nth(1).expect("a row")
}

#[test]
fn found() {
    // the registers of the shipped set's entries, by document 01's masks
    let one = "00000001    00A00F11 00800800 FEDA3203 178BFBFF";
    let state = "0000000D.B  00000010 00000000 00000001 00000000";
    for (arguments, expected) in [
        (&["1"][..], one),
        (&["0x1"], one),
        (&["00000001"], one),
        (&["1", "--enforce"], one),
        // a leaf without subleaves answers under any
        (&["1.0"], one),
        (&["0x1.0x9"], one),
        (&["1.ffffffff"], one),
        (&["1h"], one),
        (&["00000001H.5h"], one),
        (&["d.b"], state),
        (&["Dh.Bh"], state),
        (&["Dh.0xb"], state),
        (&["0xD.0xB", "--enforce"], state),
        (&["D.0B"], state),
        (&["8000001d.3"], "8000001D.3  0003C163 03C0003F 00007FFF 00000001"),
    ] {
        let ran = run(&[&["lookup", EPYC], arguments].concat());
        assert_eq!((ran.status, ran.err.as_str()), (0, ""), "{arguments:?}");
        assert_eq!(row(ran.text()), expected);
    }
}

#[test]
fn the_words_are_those_of_the_table() {
    let table = run(&["table", EPYC]);
    let found = run(&["lookup", EPYC, "80000008"]);
    let (heading, row) = found.text().split_once('\n').unwrap();
    assert!(table.text().starts_with(heading));
    assert!(table.text().contains(&format!("\n{row}")));
    assert!(row.contains("\n    EBX  CLZERO InstRetCntMsr "));
}

/// A leaf with subleaves that is asked for without one: all its rows, as the table has them.
#[test]
fn all_rows_of_a_leaf() {
    let table = run(&["table", EPYC, "--origins"]);
    for (leaf, name, rows) in
        [("D", "0000000D", 5), ("Dh", "0000000D", 5), ("0xb", "0000000B", 2), ("8000001Dh", "8000001D", 4), ("7", "00000007", 1)]
    {
        let ran = run(&["lookup", EPYC, leaf, "--origins"]);
        assert_eq!((ran.status, ran.err.as_str()), (0, ""));
        let (heading, found) = ran.text().split_once('\n').unwrap();
        assert!(table.text().starts_with(heading) && table.text().contains(found), "{found}");
        assert_eq!(found.lines().filter(|line| line.starts_with(name)).count(), rows);
        assert_eq!(found.lines().filter(|line| !line.starts_with(' ')).count(), rows);
    }
}

#[test]
fn not_found() {
    for (arguments, line) in [
        (&["6"][..], "leaf 00000006 is not in the table"),
        (&["40000000.1"], "leaf 40000000.1 is not in the table"),
        (&["1.0", "--enforce"], "leaf 00000001.0 is not in the table: leaf 00000001 has no subleaves"),
        (&["D", "--enforce"], "leaf 0000000D must be asked for by subleaf: leaf 0000000D has subleaves 0, 1, 2, B, C"),
        (&["D.9"], "leaf 0000000D.9 is not in the table: leaf 0000000D has subleaves 0, 1, 2, B, C"),
        (&["7.1"], "leaf 00000007.1 is not in the table: leaf 00000007 has subleaves 0"),
    ] {
        let ran = run(&[&["lookup", EPYC], arguments].concat());
        assert_eq!((ran.status, ran.line()), (3, line));
    }
}

/// A feature by its name, in capitals or not: where it stands and whether it is set; a name may stand in two registers.
#[test]
fn a_feature_by_its_name() {
    let folder = Folder::new("lookup_name");
    for name in ["FMA", "fma", "Fma"] {
        let ran = run(&["lookup", EPYC, name]);
        assert_eq!((ran.status, ran.text()), (0, "FMA  leaf 00000001 ECX bit 12: set\n"));
    }
    let less = folder.file("less", crate::page_sets::set(&crate::page_sets::with(1, 0, 2, |ecx| ecx & !(1 << 12))));
    let ran = run(&["lookup", &less, "FMA"]);
    assert_eq!((ran.status, ran.text()), (3, "FMA  leaf 00000001 ECX bit 12: clear\n"));
    assert_eq!(ran.failure(), format!("{less}: its table does not have FMA"));
    let twice = run(&["lookup", EPYC, "AVX"]);
    assert_eq!(twice.text(), "AVX  leaf 00000001 ECX bit 28: set\nAVX  leaf 0000000D.0 EAX bit 2: set\n");
    // a number too: the bit by name, the leaf after 0x
    assert_eq!(run(&["lookup", EPYC, "DE"]).text(), "DE  leaf 00000001 EDX bit 2: set\nDE  leaf 80000001 EDX bit 2: set\n");
    assert!(run(&["lookup", EPYC, "0xDE"]).line().starts_with("leaf 000000DE is not in the table"));
    // as one processor's guest sees it
    let seen = |osxsave: &[&str]| run(&[&["lookup", EPYC, "OSXSAVE", "--apic", "0", "--xcr0", "7", "--xss", "0"], osxsave].concat()).status;
    assert_eq!((seen(&[]), seen(&["--osxsave"])), (3, 0));
    assert!(run(&["lookup", EPYC, "AVX521F"]).line().contains(", did you mean 'AVX512F'? "));
    if let Some(read) = crate::json_text::jq(&run(&["lookup", &less, "FMA", "--json"]).out, "[.answer, (.bits[] | .leaf, .register, .bit, .set)]") {
        assert_eq!(read, r#"["not found","00000001","ECX",12,false]"#);
    }
}
