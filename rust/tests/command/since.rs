//! `fleet --since`: what changed since a report of before.

use crate::page_sets::{epyc, set, with};
use crate::run::{Folder, Ran, run};
use snp_cpuid::{Options, fingerprint};
use std::fs;

fn without_fma() -> Vec<u8> {
    set(&with(0x1, 0, 2, |ecx| ecx & !(1 << 12)))
}

fn short(pages: &[u8]) -> String {
    format!("{:.8}", fingerprint(pages, Options::new()).unwrap())
}

/// The last part of a report.
fn told(ran: &Ran) -> &str {
    ran.text().rsplit("\n\n").next().unwrap()
}

/// A fleet in a folder, and its report of before.
fn before(folder: &Folder) -> (String, String) {
    fs::create_dir(folder.path("fleet")).unwrap();
    for name in ["a", "b", "c"] {
        folder.file(&format!("fleet/{name}.pages"), set(&epyc()));
    }
    let fleet = folder.path("fleet");
    let report = run(&["fleet", &fleet, "--json"]);
    assert_eq!(report.status, 0);
    (fleet, folder.file("old.json", &report.out))
}

#[test]
fn servers_come_go_and_change() {
    let folder = Folder::new("since");
    let (fleet, old) = before(&folder);
    let same = run(&["fleet", &fleet, "--since", &old]);
    assert_eq!((same.status, told(&same)), (0, format!("Since {old}: 0 servers changed\n").as_str()));
    // a server more and one less are no change of a table
    folder.file("fleet/d.pages", without_fma());
    fs::remove_file(folder.path("fleet/c.pages")).unwrap();
    let moved = run(&["fleet", &fleet, "--since", &old]);
    assert_eq!((moved.status, told(&moved)), (0, format!("Since {old}: 0 servers changed\n   came     d\n   went     c\n").as_str()));
    // one without FMA now, another of a stepping more, which is no feature
    folder.file("fleet/a.pages", without_fma());
    folder.file("fleet/b.pages", set(&with(0x1, 0, 0, |eax| eax + 1)));
    let changed = run(&["fleet", &fleet, "--since", &old]);
    let (was, fma) = (short(&set(&epyc())), short(&without_fma()));
    let stepping = short(&set(&with(0x1, 0, 0, |eax| eax + 1)));
    let lines = format!(
        "Since {old}: 2 servers changed\n   came     d\n   went     c\n   changed  a from {was} to {fma}; now without FMA\n   \
         changed  b from {was} to {stepping}; 1 difference besides\n"
    );
    assert_eq!((changed.status, told(&changed)), (1, lines.as_str()));
    let json = run(&["fleet", &fleet, "--since", &old, "--json"]);
    assert!(json.status == 1 && json.text().contains("\"now_lacks\": [\"FMA\"]") && json.text().contains("\"came\": [\"d\"]"), "{}", json.text());
    // back to it
    let new = folder.file("new.json", run(&["fleet", &fleet, "--json"]).out);
    folder.file("fleet/a.pages", set(&epyc()));
    assert!(told(&run(&["fleet", &fleet, "--since", &new])).contains(&format!("a from {fma} to {was}; now with FMA\n")));
    // refused since
    folder.file("fleet/a.pages", set(&with(0x8000_0008, 0, 1, |ebx| ebx & !8)));
    let refused = run(&["fleet", &fleet, "--since", &new]);
    assert!(refused.status == 1 && told(&refused).contains(&format!("a from {fma} to refused\n")), "{}", refused.text());
}

#[test]
fn reports_that_cannot_be_read() {
    let folder = Folder::new("since_bad");
    let (fleet, old) = before(&folder);
    let text = fs::read_to_string(&old).unwrap();
    let image = text.find("\"image\": \"").unwrap() + 12;
    let damaged = [&text[..image], "f", &text[image + 1..]].concat();
    for (bytes, words) in [
        (&b""[..], "is no JSON"),
        (b"\xFF", "is no JSON"),
        (b"{\"answer\": }", "is no JSON"),
        (b"[[[[[[[[[[[[[[[[[[[[[[[[[[[[[[[[[[[[[[[[[[[[[[[[[[[[", "is no JSON"),
        (b"{}", "is no report of 'fleet --json' in version 1 of its form"),
        (text.replacen("\"version\": 1", "\"version\": 2", 1).as_bytes(), "is no report of 'fleet --json' in version 1 of its form"),
        (
            text.replacen("\"edition\": 1", "\"edition\": 2", 1).as_bytes(),
            "was made under other choices: --edition, --secure-avic and --view must be the same",
        ),
        (damaged.as_bytes(), "is damaged"),
    ] {
        let file = folder.file("bad.json", bytes);
        let ran = run(&["fleet", &fleet, "--since", &file]);
        assert!(ran.status == 2 && ran.line() == format!("{file}: {words}"), "{words}: {ran:?}");
    }
    let ran = run(&["fleet", &fleet, "--since", "no/such"]);
    assert!(ran.status == 2 && ran.line().starts_with("no/such: "), "{ran:?}");
}

/// Names of any characters come back from a report, whatever stands around them; of a member that stands twice the first counts.
#[test]
fn a_report_is_read_as_it_was_written() {
    let folder = Folder::new("since_names");
    fs::create_dir(folder.path("fleet")).unwrap();
    for name in ["\"quoted\"", "<b>&amp;", "back\\slash", "\u{E4}\u{2028}\u{1F600}", "tab\tand\nline"] {
        folder.file(&format!("fleet/{name}"), set(&epyc()));
    }
    let fleet = folder.path("fleet");
    let text = String::from_utf8(run(&["fleet", &fleet, "--json"]).out).unwrap();
    for (old, status) in [
        (text.clone(), 0),
        (text.replace('\n', " \r\n\t"), 0),
        (text.replacen("\"version\": 1", "\"version\": 1, \"version\": 2, \"more\": [{\"x\": [null, -1.5e3]}, []]", 1), 0),
        (text.replacen("\"version\": 1", "\"version\": 2, \"version\": 1", 1), 2),
        (text.replacen("\"servers\": [", "\"servers\": 1, \"servers\": [", 1), 2),
        (text.clone() + "0", 2),
    ] {
        let file = folder.file("old.json", &old);
        let ran = run(&["fleet", &fleet, "--since", &file]);
        assert_eq!(ran.status, status, "{}", ran.err);
        assert!(status == 2 || told(&ran) == format!("Since {file}: 0 servers changed\n"), "{}", ran.text());
    }
}
