//! A good text with something changed in it, and cut short.

// Each test takes what it needs of it.
#![allow(dead_code)]

/// What a byte of the output is before the call.
pub const BYTE_AS_FOUND: u8 = 0xAA;

/// The text with this in place of that, which stands there once.
pub fn changed(text: &str, old: &str, new: &str) -> String {
    assert_eq!(text.matches(old).count(), 1, "{old:?}");
    text.replace(old, new)
}

/// The text cut at each byte before its end, with the number of whole lines that are left.
pub fn cut_everywhere(text: &str) -> impl Iterator<Item = (&str, u64)> {
    (0..text.len()).map(|length| (&text[..length], text[..length].matches('\n').count() as u64))
}
