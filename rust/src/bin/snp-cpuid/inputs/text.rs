//! Text: which program wrote it, and its lines.

use super::{Kind, dump, libcpuid, log};

/// Who wrote a text, by its first line that one of them writes and nobody else does.
pub fn kind(bytes: &[u8]) -> Option<Kind> {
    lines(bytes).find_map(|line| match line {
        line if dump::is_row(line) => Some(Kind::Dump),
        line if libcpuid::is_row(line) => Some(Kind::Libcpuid),
        line if log::is_entry(line) => Some(Kind::Log),
        _ => None,
    })
}

/// The lines of a text, without what stands around them; one that is no text is empty.
fn lines(bytes: &[u8]) -> impl Iterator<Item = &str> {
    bytes.split(|byte| *byte == b'\n').map(|line| std::str::from_utf8(line).unwrap_or_default().trim())
}

/// The lines that a log or a report may have beside those that are read.
pub fn found<'a, T>(bytes: &'a [u8], read: impl Fn(&'a str) -> Option<T>) -> impl Iterator<Item = T> {
    lines(bytes).filter_map(read)
}

/// The beginning of a line, in plain ASCII.
pub fn quoted(text: &str) -> String {
    let start: String = text.trim().chars().take(40).collect();
    format!("'{}{}'", start.escape_default(), if text.trim().chars().count() > 40 { ".." } else { "" })
}

/// Decimal digits, at least one.
pub fn is_decimal(text: &str) -> bool {
    !text.is_empty() && text.bytes().all(|digit| digit.is_ascii_digit())
}

/// Eight hexadecimal digits.
pub fn eight(text: &str) -> Option<u32> {
    if text.len() == 8 { crate::numbers::digits(text) } else { None }
}
