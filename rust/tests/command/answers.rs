//! `--json`: each command's shape as docs/COMMAND.md documents it, read by Debian's `jq`; every value is that of the text or the library.

use crate::json_text::jq;
use crate::page_sets::{epyc, set, stated, with, without};
use crate::run::{EPYC, Folder, run};
use snp_cpuid::{Options, Origin, build};
use std::fs;

/// The members that docs/COMMAND.md gives a shape, in their order: the words in backquotes, those in brackets apart.
pub fn documented(shape: &str) -> String {
    let text = fs::read_to_string("../docs/COMMAND.md").expect("the document");
    let line = text.lines().find_map(|line| line.strip_prefix(&format!("| {shape} | "))).unwrap_or_else(|| panic!("no shape of {shape}"));
    let (mut depth, mut outside) = (0, String::new());
    for c in line.chars() {
        depth += i32::from(c == '(') - i32::from(c == ')');
        if depth == 0 {
            outside.push(c);
        }
    }
    outside.split('`').skip(1).step_by(2).collect::<Vec<_>>().join(" ")
}

/// What a filter makes of the object that a command prints; its members are those of the document.
fn asked(arguments: &[&str], filter: &str) -> Option<String> {
    let ran = run(&[arguments, &["--json"]].concat());
    let refused = jq(&ran.out, ".answer")? == "\"refused\"" && !["compare", "entries"].contains(&arguments[0]);
    let shape = if refused { "any, where pages are refused" } else { arguments[0] };
    assert_eq!(members(&ran.out, "."), documented(shape), "{arguments:?}");
    jq(&ran.out, filter)
}

/// The members of the object that a filter gives.
pub fn members(text: &[u8], filter: &str) -> String {
    jq(text, &format!("{filter} | keys_unsorted | join(\" \")")).expect("jq is there").trim_matches('"').to_string()
}

#[test]
fn table_has_the_librarys_rows() {
    let table = build(&fs::read(EPYC).unwrap(), Options::new()).unwrap();
    let rows: Vec<String> = table
        .rows()
        .map(|row| {
            let origin = match row.origin {
                Origin::MadeHere => "\"made here\",null,null".to_string(),
                Origin::Entry { page, entry } => format!("\"entry\",{page},{entry}"),
                _ => panic!("pages were read"),
            };
            let registers = [row.result.eax, row.result.ebx, row.result.ecx, row.result.edx].map(|value| format!("\"{value:08X}\"")).join(",");
            let subleaf = row.subleaf.map_or("null".into(), |subleaf| subleaf.to_string());
            format!("[\"{:08X}\",{subleaf},{registers},{origin}]", row.leaf)
        })
        .collect();
    let filter = "[.rows[] | [.leaf, .subleaf, .eax, .ebx, .ecx, .edx, .origin, .page, .entry]]";
    let Some(read) = asked(&["table", EPYC], filter) else { return };
    assert_eq!(read, format!("[{}]", rows.join(",")));
    let filter = "[.answer, .edition, .combined_mask, .states, .save_area_bytes, .topology]";
    let expected = "[\"accepted\",1,\"00001807\",[\"x87\",\"SSE\",\"AVX\",\"CET_U\",\"CET_S\"],832,\
                    {\"threads_per_core\":2,\"logical_processors\":128,\"thread_shift\":1,\"core_shift\":7}]";
    assert_eq!(asked(&["table", EPYC], filter).unwrap(), expected);
    // the names are those that the text has
    let names = asked(&["table", EPYC], "[.rows[].features[]] | length").unwrap();
    assert_eq!(names, "121");
}

#[test]
fn lookup_and_guest() {
    let Some(found) = asked(&["lookup", EPYC, "Dh"], "[.answer, .leaf, .subleaf, (.rows | map(.subleaf))]") else { return };
    assert_eq!(found, "[\"found\",\"0000000D\",null,[0,1,2,11,12]]");
    let absent = run(&["lookup", EPYC, "D.9", "--json"]);
    assert_eq!(
        (absent.status, absent.err.as_str()),
        (3, "snp-cpuid: leaf 0000000D.9 is not in the table: leaf 0000000D has subleaves 0, 1, 2, B, C\n")
    );
    assert_eq!(jq(&absent.out, "[.answer, .subleaf, .rows]").unwrap(), "[\"not found\",9,[]]");
    let processor = ["--apic", "5", "--xcr0", "7", "--xss", "800", "--osxsave"];
    let seen = [&["guest", EPYC][..], &processor].concat();
    let read = asked(&seen, "[.processor, (.rows[] | select(.leaf == \"0000000D\" and .subleaf == 1) | .ebx)]");
    assert_eq!(read.unwrap(), "[{\"x2apic\":\"00000005\",\"xcr0\":\"7\",\"xss\":\"800\",\"osxsave\":true},\"00000350\"]");
    let one = asked(&[&["lookup", EPYC, "B.1"][..], &processor].concat(), "[.processor.xss, .rows[0].edx]");
    assert_eq!(one.unwrap(), "[\"800\",\"00000005\"]");
    let beyond = asked(&["guest", EPYC, "--apic", "5", "--xcr0", "e7", "--xss", "0"], "[.answer, .refusal.number, .refusal.needs]");
    assert_eq!(beyond.unwrap(), "[\"refused\",13,\"XCR0 7 and XSS 0\"]");
}

/// A dump of one processor that sees the table, and of one without FMA.
#[test]
fn check_of_dumps() {
    let folder = Folder::new("answers_check");
    let dump = run(&["to-dump", EPYC]).text().to_string();
    let (same, less) = (folder.file("same", &dump), folder.file("less", dump.replace("ecx=0xfeda3203", "ecx=0xfeda2203")));
    let filter = "[.answer, (.processors | length), .processors[0].same, .processors[0].unlike]";
    let Some(read) = asked(&["check", EPYC, "--dump", &same], filter) else { return };
    assert_eq!(read, r#"["same",1,true,[]]"#);
    let read = asked(&["check", EPYC, "--dump", &less], ".processors[0].unlike[] | [.leaf, .register, .table, .here, .bits[].name]").unwrap();
    assert_eq!(read, r#"["00000001","ECX","FEDA3203","FEDA2203","FMA"]"#);
}

#[test]
fn compare_both_ways() {
    let folder = Folder::new("answers_compare");
    let less = folder.file("less", set(&with(1, 0, 2, |ecx| ecx & !(1 << 12))));
    let same = folder.file("same", set(&epyc()));
    let filter =
        "[.answer, .equal, (.differences[0] | [.leaf, .register, .bit, .name, .a, .b, .in_the_way]), .a_to_b.by_entries, .b_to_a.by_entries]";
    let Some(read) = asked(&["compare", &same, &less], filter) else { return };
    assert_eq!(read, "[\"no\",false,[\"00000001\",\"ECX\",12,\"FMA\",true,false,true],\"no\",\"yes\"]");
    let read = asked(&["compare", &less, &same], filter).unwrap();
    assert_eq!(read, "[\"yes\",false,[\"00000001\",\"ECX\",12,\"FMA\",false,true,false],\"yes\",\"no\"]");
    let first = asked(&["compare", &same, &less], ".a_to_b | [.leaf, .subleaf, .register, .bit, .name, .from, .to, .hidden]").unwrap();
    assert_eq!(first, "[\"00000001\",null,\"ECX\",12,\"FMA\",\"7EDA3203\",\"7EDA2203\",false]");
    assert_eq!(asked(&["compare", &same, &same], "[.answer, .equal, .differences]").unwrap(), "[\"yes\",true,[]]");
    let words = asked(&["compare", &same, &less], ".words").unwrap();
    assert_eq!(words, "\"no: a guest of A may not move to B. B lacks FMA, leaf 00000001 ECX bit 12.\"");
    // a refused server: its refusal stands beside it
    let refused = folder.file("refused", set(&without(0xD, 2)));
    let filter = "[.answer, .b.accepted, .b.refusal.line, .b.refusal.missing, .a.refusal, .a_to_b.leaf, .a_to_b.subleaf, .b_to_a.refused_by]";
    let read = asked(&["compare", &same, &refused], filter).unwrap();
    assert_eq!(read, "[\"refused\",false,\"3 0000000D 2\",[{\"leaf\":\"0000000D\",\"subleaf\":2}],null,\"0000000D\",2,3]");
}

#[test]
fn pool_and_what_it_cost() {
    let folder = Folder::new("answers_pool");
    let servers = [set(&epyc()), set(&with(1, 0, 2, |ecx| ecx & !(1 << 12))), set(&with(1, 0, 2, |ecx| ecx & !(1 << 12 | 1 << 22)))];
    let files: Vec<String> = servers.iter().enumerate().map(|(place, pages)| folder.file(&place.to_string(), pages)).collect();
    let arguments = ["pool", &files[0], &files[1], &files[2]];
    let filter = "[.answer, .image, (.servers | map(.cost | map(.name))), (.lacked_by_several | map([(.servers | length), (.bits | map(.name))]))]";
    let Some(read) = asked(&arguments, filter) else { return };
    assert_eq!(read, "[\"accepted\",null,[[],[],[\"MOVBE\"]],[[2,[\"FMA\"]]]]");
    // with -o the image is written, and named
    let image = folder.path("image");
    let read = asked(&[&arguments[..], &["-o", &image]].concat(), ".image").unwrap();
    assert_eq!(read, format!("\"{image}\""));
    assert_eq!(fs::read(&image).unwrap(), run(&["image", &files[2], "-o", "-"]).out);
    // its rows are those of the text
    let rows = jq(&run(&[&arguments[..], &["--json"]].concat()).out, "[.rows[] | [.eax, .ebx, .ecx, .edx]]").unwrap();
    assert_eq!(rows, jq(&run(&["table", &files[2], "--json"]).out, "[.rows[] | [.eax, .ebx, .ecx, .edx]]").unwrap());
}

#[test]
fn nearest_carry_and_topologies() {
    let folder = Folder::new("answers_others");
    let filter = "[.page, .entry, .leaf, .register, .bit, .name, .set, .as_it_stands, .flipped.rows, (.differences | length)]";
    let Some(read) = asked(&["nearest", EPYC], filter) else { return };
    assert_eq!(read, "[0,1,\"00000001\",\"EAX\",0,\"bit 0 of processor-stepping\",true,{\"answer\":\"accepted\",\"rows\":29},29,1]");
    let clear = folder.file("clear", set(&with(0x8000_0008, 0, 1, |ebx| ebx & !8)));
    let read = asked(&["nearest", &clear], "[.name, .set, .as_it_stands.refusal.number, .flipped.answer, .differences]").unwrap();
    assert_eq!(read, "[\"INVLPGB\",false,4,\"accepted\",[]]");
    let missing = folder.file("missing", set(&without(1, 0)));
    let read = asked(&["nearest", &missing], "[.answer, .refusal.number, .refusal.missing]").unwrap();
    assert_eq!(read, "[\"refused\",20,[{\"leaf\":\"00000001\",\"subleaf\":null}]]");

    let (pages, image) = (folder.file("pages", stated(3)), folder.path("image"));
    let carry = ["carry", &pages, "--from", "1", "--to", "2", "--xcr0", "3", "--xss", "0", "-o", &image];
    let read = asked(&carry, "[.answer, .from, .to, (.gone | map([.leaf, .register, .bit, .name]))]").unwrap();
    assert_eq!(read, "[\"carried\",1,2,[[\"00000001\",\"ECX\",29,\"F16C\"],[\"80000001\",\"ECX\",11,\"XOP\"],[\"80000001\",\"ECX\",16,\"FMA4\"]]]");
    assert_eq!(fs::read(&image).unwrap(), run(&["image", &pages, "--edition", "2", "-o", "-"]).out);

    let read = asked(&["topologies"], "[.answer, (.topologies | length), .topologies[1018]]").unwrap();
    assert_eq!(read, "[\"listed\",1019,{\"s\":7,\"nc\":127,\"lps\":128,\"mt\":1,\"t\":1}]");
    let text = run(&["topologies"]);
    let numbers: Vec<&str> = text.text().lines().skip(1).flat_map(str::split_whitespace).collect();
    let filter = "[.topologies[] | .s, .nc, .lps, .mt, .t] | join(\" \")";
    assert_eq!(asked(&["topologies"], filter).unwrap().trim_matches('"'), numbers.join(" "));
}

/// The shapes inside: each as the document has it.
#[test]
fn shapes_inside_are_documented() {
    let folder = Folder::new("answers_inside");
    let file = |name: &str, pages: Vec<u8>| folder.file(name, pages);
    let (same, less) = (file("same", set(&epyc())), file("less", set(&with(1, 0, 2, |ecx| ecx & !(1 << 12)))));
    let (other, missing) = (file("other", set(&with(5, 0, 0, |eax| eax + 1))), file("missing", set(&without(5, 0))));
    let (every, no_state) = (file("every", stated(0xE7)), file("no_state", stated(3)));
    let carry = ["carry", &no_state, "--from", "1", "--to", "2", "--xcr0", "3", "--xss", "0", "-o", "/dev/null"];
    for (arguments, filter, shape) in [
        (&["table", &missing][..], ".refusal", "a refusal"),
        (&["explain", "4"], ".refusal", "a refusal"),
        (&["table", &same], ".rows[0]", "a row"),
        (&["lookup", &same, "D.1"], ".rows[0]", "a row"),
        (&["pool", &same, &less], ".servers[1].cost[0]", "a bit"),
        (&carry, ".gone[0]", "a bit"),
        (&["compare", &same, &less], ".differences[0]", "a difference in a feature bit"),
        (&["compare", &same, &other], ".differences[0]", "a difference in another register"),
        (&["nearest", &same], ".differences[0]", "a difference in another register"),
        (&["compare", &every, &no_state], ".differences[] | select(.leaf == \"0000000D\" and .subleaf == 5)", "a row that one has alone"),
        (&["compare", &same, &less], ".b_to_a", "a direction, yes"),
        (&["compare", &same, &less], ".a_to_b", "a direction, no by a register"),
        (&["compare", &same, &missing], ".a_to_b", "a direction, no by an entry that is not there"),
        (&["compare", &missing, &same], ".a_to_b", "a direction, no by a refusal"),
        (&["entries", &missing], ".entries[0]", "an entry"),
    ] {
        let out = run(&[arguments, &["--json"]].concat()).out;
        if jq(&out, ".").is_none() {
            return;
        }
        assert_eq!(members(&out, filter), documented(shape), "{arguments:?}");
    }
    assert_eq!(asked(&["entries", &missing], ".refusal.line").unwrap(), "\"3 00000005\"");
    assert_eq!(asked(&["explain", "7 6"], ".refusal.s").unwrap(), "6");
}

/// Standard output has one thing: bytes, a line or JSON.
#[test]
fn one_thing_on_standard_output() {
    for (arguments, words) in [
        (&["table", EPYC, "--json", "--line"][..], "table: --line and --json both go to standard output"),
        (&["pool", EPYC, EPYC, "-o", "-", "--json"], "pool: -o - and --json both go to standard output"),
        (&["topologies", "-o", "-", "--json"], "topologies: -o - and --json both go to standard output"),
        (&["carry", EPYC, "--from", "1", "--to", "2", "--xcr0", "1", "--xss", "0", "-o", "-", "--json"], "carry: -o - and --json both go to"),
    ] {
        let ran = run(arguments);
        assert!(ran.status == 2 && ran.line().starts_with(words), "{}", ran.err);
    }
}
