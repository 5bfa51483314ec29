//! The page of `fleet --html` in a browser, Debian's `chromium` without a window: it has what `--json` has, and nothing on it is broken. Where
//! chromium is not installed the tests say so.

use crate::fleet::{less, small};
use crate::json_text::jq;
use crate::page_sets::{epyc, rich, set, with};
use crate::run::{Folder, run};
use std::collections::BTreeSet;
use std::fs;
use std::io::Write;
use std::process::Command;

fn installed() -> bool {
    let there = Command::new("chromium").arg("--version").output().is_ok_and(|output| output.status.success());
    if !there {
        // not by eprintln!, which a test that passes keeps to itself
        let _ = writeln!(std::io::stderr(), "skipped: Debian's chromium is not installed (apt-get install chromium)");
    }
    there
}

/// The document that chromium makes of a page, and what its console said.
fn browsed(folder: &Folder, page: &str, options: &[&str]) -> (String, Vec<String>) {
    let profile = format!("--user-data-dir={}", folder.path("profile"));
    let usual = ["--headless", "--no-sandbox", "--disable-gpu", "--enable-logging=stderr", &profile, "--dump-dom"];
    let output = Command::new("chromium").args(usual).args(options).arg(format!("file://{page}")).output().expect("chromium runs");
    assert!(output.status.success(), "{}", String::from_utf8_lossy(&output.stderr));
    let console = String::from_utf8_lossy(&output.stderr).lines().filter(|line| line.contains("CONSOLE")).map(String::from).collect();
    (String::from_utf8(output.stdout).expect("text"), console)
}

/// The values of these attributes in every tag that has them all.
fn attributes(document: &str, names: &[&str]) -> Vec<Vec<String>> {
    let value = |tag: &str, name: &str| {
        let (_, rest) = tag.split_once(&format!(" {name}=\""))?;
        Some(rest.split('"').next()?.to_string())
    };
    let tags = document.split('<').map(|tag| tag.split('>').next().unwrap_or_default());
    tags.filter_map(|tag| names.iter().map(|name| value(tag, name)).collect()).collect()
}

/// Lines that `jq` makes of JSON.
fn lines(json: &[u8], filter: &str) -> Option<Vec<String>> {
    let text = jq(json, &format!("[{filter}]"))?;
    let inside = text.trim_start_matches('[').trim_end_matches(']');
    Some(if inside.is_empty() { vec![] } else { inside.split("\",\"").map(|line| line.trim_matches('"').to_string()).collect() })
}

/// A fleet with all that a page can show: classes in two groups, states, a pool, refusals, a note, and a name with marks of HTML in it.
fn shown_fleet(folder: &Folder) -> String {
    fs::create_dir(folder.path("fleet")).unwrap();
    small(folder);
    for name in folder.names().iter().filter(|name| name.ends_with(".pages")) {
        fs::rename(folder.path(name), folder.path(&format!("fleet/{name}"))).unwrap();
    }
    let mut poor = rich();
    poor.get_mut(&(0xD, 0)).unwrap()[0] = 7;
    folder.file("fleet/f1.pages", set(&rich()));
    folder.file("fleet/f2.pages", set(&poor));
    folder.file("fleet/<b>&amp;\"g\".pages", set(&with(7, 0, 1, |ebx| ebx | 1 << 16)));
    folder.file("fleet/h", &set(&epyc())[..8191]);
    folder.path("fleet")
}

#[test]
fn the_page_has_what_the_library_answered() {
    if !installed() {
        return;
    }
    let folder = Folder::new("fleet_browser");
    let (fleet, page) = (shown_fleet(&folder), folder.path("page.html"));
    assert_eq!(run(&["fleet", &fleet, "--html", &page]), run(&["fleet", &fleet]));
    let json = run(&["fleet", &fleet, "--json"]).out;
    let (document, console) = browsed(&folder, &page, &["--window-size=1280,900"]);
    assert_eq!(console, [""; 0]);
    let joined = |names: &[&str]| attributes(&document, names).into_iter().map(|values| values.join(" ")).collect::<Vec<_>>();
    let has = attributes(&document, &["data-class", "data-has"]);
    let classes: Vec<String> = attributes(&document, &["data-class", "data-servers"]).into_iter().map(|values| values[0].clone()).collect();
    let rows = attributes(&document, &["data-bits"]).into_iter().zip(has.chunks(classes.len()));
    let features: Vec<String> = rows
        .flat_map(|(bits, cells)| {
            let having: Vec<&str> = cells.iter().filter(|cell| cell[1] == "1").map(|cell| cell[0].as_str()).collect();
            bits[0].split(' ').map(|bit| format!("{bit} {}", having.join(","))).collect::<Vec<_>>()
        })
        .collect();
    let mut numbers: Vec<String> = attributes(&document, &["data-refusal", "data-servers"]).into_iter().map(|values| values.join(" ")).collect();
    numbers.sort();
    for (filter, on_page) in [
        (r#".classes[] | "\(.name) \(.servers | length)""#, joined(&["data-class", "data-servers"])),
        (r#".moves[] | "\(.from) \(.to) \(if .answer == "yes" then "yes" else "no" end)""#, joined(&["data-from", "data-to", "data-answer"])),
        (r#".features[] | "\(.name) \(.classes | join(","))""#, features),
        (".pools[].lost[].name", joined(&["data-lost"])),
        (r#"[.servers[] | select(.refusal) | .refusal.number] | group_by(.) | map("\(.[0]) \(length)") | sort[]"#, numbers),
    ] {
        if let Some(expected) = lines(&json, filter) {
            assert!(!expected.is_empty());
            assert_eq!(on_page, expected, "{filter}");
        }
    }
    // every server by its name, and the marks of HTML in one of them as text
    let named = document.split("<bdi>").skip(1).map(|rest| rest.split("</bdi>").next().unwrap_or_default());
    let named: BTreeSet<String> = named.map(|name| name.replace("&lt;", "<").replace("&gt;", ">").replace("&amp;", "&")).collect();
    let files = fs::read_dir(&fleet).unwrap().map(|entry| entry.unwrap().file_name().into_string().unwrap());
    assert_eq!(named, files.map(|name| name.trim_end_matches(".pages").to_string()).collect());
}

/// What the browser measures: how far the page is wider than the window, ids that stand twice, links and marks that lead nowhere, tables without a
/// caption, what was loaded, text under 10.5 pixels, text of less contrast than 4.5, and words of the picture that lie over others.
const MEASURE: &str = r##"<script>
const all = selector => [...document.querySelectorAll(selector)];
const colour = text => { const n = text.match(/[\d.]+/g).map(Number); return text.startsWith("color") ? n.map((v, i) => i < 3 ? 255 * v : v) : n };
const linear = v => (v /= 255) <= .03928 ? v / 12.92 : ((v + .055) / 1.055) ** 2.4;
const light = c => { const [r, g, b] = c.map(linear); return .2126 * r + .7152 * g + .0722 * b };
const own = e => colour(getComputedStyle(e).backgroundColor);
const ground = e => { for (; e; e = e.parentElement) { const c = own(e); if (c.length < 4 || c[3] > 0) return c } return [255, 255, 255] };
const contrast = (a, b) => { const [x, y] = [light(a.slice(0, 3)), light(b.slice(0, 3))].sort((p, q) => q - p); return (x + .05) / (y + .05) };
const texts = all("body *").filter(e => !e.closest("script, .v, title, desc") && [...e.childNodes].some(n => n.nodeType == 3 && n.data.trim()));
const ink = e => colour(e.closest("svg") ? getComputedStyle(e).fill : getComputedStyle(e).color);
const apart = (p, q) => p.left >= q.right || q.left >= p.right || p.top >= q.bottom || q.top >= p.bottom;
const over = (a, b) => !apart(a.getBoundingClientRect(), b.getBoundingClientRect());
const words = all(".gain");
document.body.dataset.measured = [
  document.documentElement.scrollWidth - document.documentElement.clientWidth,
  all("[id]").length - new Set(all("[id]").map(e => e.id)).size,
  all("a[href^='#']").filter(a => !document.getElementById(a.getAttribute("href").slice(1))).length,
  all("use").filter(u => !document.querySelector(u.getAttribute("href"))).length,
  all(".s table").filter(t => !t.caption).length,
  performance.getEntriesByType("resource").length,
  texts.filter(e => parseFloat(getComputedStyle(e).fontSize) < 10.5).length,
  texts.filter(e => contrast(ink(e), ground(e)) < 4.5).length,
  words.filter((a, i) => words.some((b, j) => i < j && over(a, b)) || all(".box").some(b => over(a, b))).length,
].join(" ");
</script>"##;

/// What the browser measures on the page of a fleet. The page lets no script run: the copy that is measured does.
fn measured(folder: &Folder, fleet: &str, options: &[&str]) -> String {
    let page = folder.path("page.html");
    assert_eq!(run(&["fleet", fleet, "--html", &page]).err, "");
    let text = fs::read_to_string(&page).unwrap();
    let policy = "<meta http-equiv=\"Content-Security-Policy\" content=\"default-src 'none'; style-src 'unsafe-inline'; img-src data:\">\n";
    assert!(text.contains(policy) && !text.contains("<script"));
    let copy = folder.file("measured.html", text.replace(policy, "").replace("</body>", &format!("{MEASURE}</body>")));
    let (document, console) = browsed(folder, &copy, options);
    assert_eq!(console, [""; 0]);
    attributes(&document, &["data-measured"]).concat().concat()
}

const NOTHING_WRONG: &str = "0 0 0 0 0 0 0 0 0";

#[test]
fn it_fits_a_phone_and_can_be_read_in_the_dark() {
    if !installed() {
        return;
    }
    let folder = Folder::new("fleet_measured");
    let fleet = shown_fleet(&folder);
    for width in ["390", "1280"] {
        for scheme in ["0", "1"] {
            let options = [format!("--window-size={width},900"), format!("--blink-settings=preferredColorScheme={scheme}")];
            assert_eq!(measured(&folder, &fleet, &options.each_ref().map(String::as_str)), NOTHING_WRONG, "{width} wide, scheme {scheme}");
        }
    }
}

/// All choices of four features are sixteen classes in five rows, with 32 arrows and words on them.
#[test]
fn nothing_lies_over_another_in_the_picture() {
    if !installed() {
        return;
    }
    let folder = Folder::new("fleet_picture");
    fs::create_dir(folder.path("fleet")).unwrap();
    // FMA, MOVBE, AVX2 and SHA
    let bits = [(1, 2, 12), (1, 2, 22), (7, 1, 5), (7, 1, 29)];
    for choice in 0..16 {
        let chosen = bits.iter().enumerate().filter(|(place, _)| choice >> place & 1 == 1);
        let entries = chosen.fold(epyc(), |entries, (_, (leaf, register, bit))| less(&entries, *leaf, *register, *bit));
        folder.file(&format!("fleet/{choice:02}"), set(&entries));
    }
    let fleet = folder.path("fleet");
    assert_eq!(measured(&folder, &fleet, &["--window-size=390,900"]), NOTHING_WRONG);
    let page = fs::read_to_string(folder.path("page.html")).unwrap();
    assert_eq!((page.matches("class=\"box\"").count(), page.matches("class=\"way\"").count()), (16, 32));
    assert!(page.matches("class=\"gain\"").count() >= 24, "most arrows have their words");
}

/// A fleet of one server, of equal servers, of refused servers alone, and of a name that is longer than a line.
#[test]
fn small_fleets_have_no_broken_page() {
    if !installed() {
        return;
    }
    let folder = Folder::new("fleet_small_pages");
    let long = "x".repeat(200);
    for (place, files) in
        [&[("one", set(&epyc()))][..], &[("a", set(&epyc())), (&long, set(&epyc()))], &[("a", vec![0; 4096]), (&long, vec![0; 4096])]]
            .iter()
            .enumerate()
    {
        let fleet = folder.path(&format!("fleet-{place}"));
        fs::create_dir(&fleet).unwrap();
        for (name, pages) in *files {
            fs::write(format!("{fleet}/{name}"), pages).unwrap();
        }
        assert_eq!(measured(&folder, &fleet, &["--window-size=390,900"]), NOTHING_WRONG, "fleet {place}");
    }
}
