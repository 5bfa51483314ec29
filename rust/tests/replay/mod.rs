//! What the lists in tests/ are made of (tests/lists/replayed.py writes them): bytes, and edits that make bytes of others.

/// Bytes in hexadecimal; none where there is no digit.
pub fn bytes(hex: &str) -> Vec<u8> {
    (0..hex.len() / 2).map(|i| u8::from_str_radix(&hex[2 * i..2 * i + 2], 16).expect("a byte")).collect()
}

/// The bytes that the edits of one word make of others.
#[allow(dead_code)]
pub fn edited(mut data: Vec<u8>, word: &str) -> Vec<u8> {
    for edit in word.split(',').filter(|&edit| edit != "-") {
        if let Some(length) = edit.strip_prefix('#') {
            data.resize(length.parse().expect("a length"), 0);
        } else {
            let (offset, new) = edit.strip_prefix('@').and_then(|edit| edit.split_once(':')).expect("an edit");
            let (at, new) = (usize::from_str_radix(offset, 16).expect("an offset"), bytes(new));
            data[at..at + new.len()].copy_from_slice(&new);
        }
    }
    data
}

/// The shipped page set.
#[allow(dead_code)]
pub fn shipped() -> Vec<u8> {
    std::fs::read("../tests/data/epyc-milan.pages").expect("the shipped page set")
}
