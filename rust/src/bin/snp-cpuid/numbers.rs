//! Hexadecimal numbers, of up to 32 bits and of up to 64, and decimal ones of up to 32.

/// Digits alone: `from_str_radix` would take a sign too.
pub fn digits(text: &str) -> Option<u32> {
    text.bytes().all(|digit| digit.is_ascii_hexdigit()).then(|| u32::from_str_radix(text, 16).ok()).flatten()
}

/// Digits after 0x.
pub fn prefixed(text: &str) -> Option<u32> {
    text.strip_prefix("0x").or_else(|| text.strip_prefix("0X")).and_then(digits)
}

/// A hexadecimal number as leaves and registers are given: alone, after 0x or before h.
pub fn leaf_number(text: &str) -> Option<u32> {
    let before_h = |text: &str| text.strip_suffix(['h', 'H']).filter(|digits| !digits.is_empty()).and_then(digits);
    digits(text).filter(|_| !text.is_empty()).or_else(|| prefixed(text)).or_else(|| before_h(text))
}

/// Digits of up to 64 bits, alone or after 0x.
pub fn wide(text: &str) -> Option<u64> {
    let text = text.strip_prefix("0x").or_else(|| text.strip_prefix("0X")).unwrap_or(text);
    text.bytes().all(|digit| digit.is_ascii_hexdigit()).then(|| u64::from_str_radix(text, 16).ok()).flatten()
}

/// Decimal digits alone.
pub fn decimal(text: &str) -> Option<u32> {
    text.bytes().all(|digit| digit.is_ascii_digit()).then(|| text.parse().ok()).flatten()
}
