//! The JSON writer, read back by Debian's `jq`.

use crate::json::{Json, Part, array, hex, object};
use std::cell::Cell;
use std::io::Write;
use std::process::{Command, Stdio};

/// What `jq` makes of a text with a filter; none, and a word on it, where it is not installed.
pub fn jq(text: &[u8], filter: &str) -> Option<String> {
    let started = Command::new("jq").args(["-c", filter]).stdin(Stdio::piped()).stdout(Stdio::piped()).stderr(Stdio::piped()).spawn();
    let Ok(mut child) = started else {
        say_skipped();
        return None;
    };
    child.stdin.take().expect("a pipe").write_all(text).expect("it reads");
    let output = child.wait_with_output().expect("it ends");
    assert!(output.status.success(), "{}\n{}", String::from_utf8_lossy(&output.stderr), String::from_utf8_lossy(text));
    Some(String::from_utf8(output.stdout).expect("text").trim_end().to_string())
}

/// Whether `jq` is there; where it is not, a word on it.
pub fn installed() -> bool {
    jq(b"null", ".").is_some()
}

/// Says once for each test, which has a thread of its own, that it was passed over.
fn say_skipped() {
    thread_local!(static SAID: Cell<bool> = const { Cell::new(false) });
    if !SAID.replace(true) {
        // not by eprintln!, which a test that passes keeps to itself
        let _ = writeln!(std::io::stderr(), "skipped: Debian's jq is not installed (apt-get install jq)");
    }
}

#[test]
fn text_by_hand() {
    let value = object([
        ("a", Json::Null),
        ("b", array([1u32, 2])),
        ("c", object([("d", true.into()), ("e", hex(0xD))])),
        ("f", array([Json::Array(vec![]), Json::Object(vec![])])),
        ("g", u64::MAX.into()),
        ("h", Some("x").into()),
        ("i", None::<usize>.into()),
    ]);
    let text = "{\n  \"a\": null,\n  \"b\": [1, 2],\n  \"c\": {\"d\": true, \"e\": \"0000000D\"},\n  \"f\": [\n    [],\n    {}\n  ],\n  \
                \"g\": 18446744073709551615,\n  \"h\": \"x\",\n  \"i\": null\n}\n";
    assert_eq!(value.to_string(), text);
    assert_eq!(object([("a", 1u32.into())]).with([("b", false.into())]).to_string(), "{\"a\": 1, \"b\": false}\n");
}

/// What is written piece by piece is the text of the whole value.
#[test]
fn pieces_are_the_text() {
    let item = |number: u32| object([("n", number.into()), ("names", array(["a", "b"]))]);
    let whole = object([
        ("a", Json::Null),
        ("b", array([1u32, 2])),
        ("many", array((0..3).map(item))),
        ("none", Json::Array(vec![])),
        ("inside", object([("c", "x".into()), ("d", array([item(7)])), ("e", array([item(8)]))])),
    ]);
    let inside = vec![("c", "x".into()), ("d", array([item(7)]).into()), ("e", Part::items([item(8)].into_iter()))];
    let parts = Part::Members(vec![
        ("a", Json::Null.into()),
        ("b", array([1u32, 2]).into()),
        ("many", Part::items((0..3).map(item))),
        ("none", Part::items([].into_iter())),
        ("inside", Part::Members(inside)),
    ]);
    assert_eq!(parts.text().collect::<String>(), whole.to_string());
}

/// Every character below 256, and some above, comes back by its code from a parser that nobody here wrote.
#[test]
fn every_character_comes_back() {
    let text: String = (0..0x100).chain([0x2028, 0x2029, 0xFFFD, 0x1F600]).filter_map(char::from_u32).collect();
    let value = object([("text", text.as_str().into())]);
    let written = value.to_string();
    assert!(written.trim_end().bytes().all(|byte| byte >= 0x20 && byte != b'<'), "no control character stands in the text");
    let codes = text.chars().map(|c| u32::from(c).to_string()).collect::<Vec<_>>().join(",");
    if let Some(read) = jq(written.as_bytes(), ".text | explode") {
        assert_eq!(read, format!("[{codes}]"));
    }
}
