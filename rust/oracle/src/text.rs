//! Lines of text: whole lines one after the other, the fields of a line, and numbers in decimal.

use crate::answer::{Answer, Refusal};

/// The parts of a text between two bytes of this kind, the first and the last part with them. There is at least one.
pub fn parts(text: &[u8], parted_by: u8) -> Vec<&[u8]> {
    text.split(|&byte| byte == parted_by).collect()
}

/// The number that the field is. It is written as numbers are written here, in decimal: so without a sign, a blank or a
/// leading zero, and within 32 bits. Otherwise None.
pub fn number(field: &[u8]) -> Option<u32> {
    let value: u32 = str::from_utf8(field).ok()?.parse().ok()?;
    (value.to_string().as_bytes() == field).then_some(value)
}

/// The numbers that all these fields are.
pub fn numbers(fields: &[&[u8]]) -> Option<Vec<u32>> {
    fields.iter().map(|field| number(field)).collect()
}

/// The address that the field is, written a.b.c.d with octets of at most 255. Otherwise None.
pub fn address(field: &[u8]) -> Option<u32> {
    let [a, b, c, d] = numbers(&parts(field, b'.'))?[..] else { return None };
    let octet = |number| u8::try_from(number).ok();
    Some(u32::from_be_bytes([octet(a)?, octet(b)?, octet(c)?, octet(d)?]))
}

/// The whole lines of a text, read in order.
pub struct Lines<'a> {
    whole: Vec<&'a [u8]>,
    /// What follows the last newline. It is no line, and is never looked at before the end line is read.
    last_part: &'a [u8],
    read: usize,
}

impl<'a> Lines<'a> {
    pub fn of(text: &'a [u8]) -> Lines<'a> {
        let mut whole = parts(text, b'\n');
        let last_part = whole.pop().expect("a text has a last part");
        Lines { whole, last_part, read: 0 }
    }

    /// What `read` makes of the next line's fields. The line is wrong, 9, where it makes nothing of them; where no
    /// whole line is left, it is 10.
    pub fn next<T>(&mut self, read: impl FnOnce(&[&[u8]]) -> Option<T>) -> Result<T, Refusal> {
        let Some(line) = self.whole.get(self.read) else {
            return Err(Refusal::TextStops { lines: self.read });
        };
        self.read += 1;
        read(&parts(line, b'\t')).ok_or(Refusal::LineWrong { line: self.read })
    }

    /// Reads the end line, which gives the number of lines before it. `complete` says whether these hold all that they
    /// must; where they do not, the end line is wrong. After it nothing may follow.
    pub fn end(mut self, complete: bool) -> Result<(), Refusal> {
        let before = self.read as u32;
        self.next(|fields| match fields {
            [b"end", count] if complete && number(count)? == before => Some(()),
            _ => None,
        })?;
        if self.read < self.whole.len() || !self.last_part.is_empty() {
            return Err(Refusal::LineWrong { line: self.read + 1 });
        }
        Ok(())
    }
}

/// The text of these lines and of the end line.
pub fn text_of(mut lines: Vec<String>) -> String {
    lines.push(format!("end\t{}", lines.len()));
    lines.iter().flat_map(|line| [line, "\n"]).collect()
}

/// Writes the text to the start of the lent bytes: what refuses it, then 4. A completed writer gives `a`, the bytes
/// written; the rest of the lent bytes is as found. So are all of them on a refusal.
pub fn put_text(written: Result<String, Refusal>, text: &mut [u8]) -> Answer {
    match written {
        Err(refusal) => Answer::refused(refusal),
        Ok(written) if written.len() > text.len() => Answer::refused(Refusal::OutputShort { needed: written.len() }),
        Ok(written) => {
            text[..written.len()].copy_from_slice(written.as_bytes());
            Answer::completed(written.len() as u64, 0, 0)
        }
    }
}
