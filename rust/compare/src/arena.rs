//! One piece of memory that all lent slices of a call are part of, so that every stray write in it is seen.
//!
//! The arena is kept twice: the bytes that are lent, which the lender has mapped too, and the bytes as they must be
//! after the call. Whatever is not lent is guard, before, between and after the slices, and both copies are compared
//! whole.

use std::ops::Range;

use crate::abi::ANSWER_WORDS;
use crate::mapping::Mapping;

/// The bytes of the arena. The longest calls lend words of 41 thousand bytes and a text of 71 thousand, or the words of
/// a list, of a part and of a tree, which are 104 thousand.
pub const ARENA_BYTES: usize = 114_688;
/// The bytes of a word of a slice.
const WORD: usize = size_of::<u32>();
/// The fewest guard bytes between two lent slices.
const GUARD_BYTES: usize = 64 * WORD;
/// The 32-bit words that the answer takes.
const ANSWER_HALVES: usize = 2 * ANSWER_WORDS;

/// Where a slice stands in the arena.
#[derive(Clone, Copy)]
pub struct Lent {
    name: &'static str,
    start: usize,
    length: usize,
    /// The bytes of an element: `WORD`, or 1 for a text.
    width: usize,
}

impl Lent {
    /// Where it begins, in bytes from the arena's start.
    pub fn offset(&self) -> u64 {
        self.start as u64
    }

    /// How many elements it has.
    pub fn length(&self) -> u64 {
        self.length as u64
    }

    fn range(&self) -> Range<usize> {
        self.start..self.end()
    }

    fn end(&self) -> usize {
        self.start + self.length * self.width
    }
}

/// An element of a slice, or a byte of a guard, that is not as it must be.
pub struct Difference {
    /// The slice and the index in it, or the guard.
    pub at: String,
    pub found: u32,
    pub wanted: u32,
}

pub struct Arena {
    found: Mapping,
    wanted: Vec<u8>,
    guards: Vec<u8>,
    lent: Vec<Lent>,
    next: usize,
    calls: usize,
}

impl Arena {
    /// The arena whose lent bytes are these, which are `ARENA_BYTES`. All of them are guard.
    pub fn of(mut found: Mapping) -> Arena {
        let guards: Vec<u8> = (0..ARENA_BYTES).map(guard).collect();
        found.bytes_mut().copy_from_slice(&guards);
        Arena { found, wanted: guards.clone(), guards, lent: Vec::new(), next: GUARD_BYTES, calls: 0 }
    }

    /// Takes all slices back, for the next call. Each call begins one word further on than the one before, in
    /// turns of four, so that a slice is lent at every place that its alignment allows.
    pub fn take_back(&mut self) {
        for lent in self.lent.drain(..) {
            let guards = &self.guards[lent.range()];
            self.found.bytes_mut()[lent.range()].copy_from_slice(guards);
            self.wanted[lent.range()].copy_from_slice(guards);
        }
        self.calls += 1;
        self.next = GUARD_BYTES + self.calls % 4 * WORD;
    }

    /// Lends a copy of these words, which must stay as found.
    pub fn lend(&mut self, name: &'static str, words: &[u32]) -> Lent {
        self.next = self.next.next_multiple_of(WORD);
        let lent = self.place(name, words.len(), WORD);
        put_words(&mut self.found.bytes_mut()[lent.range()], words);
        put_words(&mut self.wanted[lent.range()], words);
        lent
    }

    /// Lends a copy of this text, which must stay as found. A text may begin at any byte: each does in turn.
    pub fn lend_text(&mut self, text: &[u8]) -> Lent {
        self.next += self.calls / 4 % WORD;
        let lent = self.place("text", text.len(), 1);
        self.found.bytes_mut()[lent.range()].copy_from_slice(text);
        self.wanted[lent.range()].copy_from_slice(text);
        lent
    }

    /// Lends the answer's words, at a place where a 64-bit word may stand: the arena begins at one.
    pub fn lend_answer(&mut self) -> Lent {
        self.next = self.next.next_multiple_of(2 * WORD);
        self.lend("answer's 32-bit", &unwritten_words(ANSWER_HALVES))
    }

    /// The bytes that are lent, for the lender to have.
    pub fn lent_bytes(&mut self) -> &mut Mapping {
        &mut self.found
    }

    /// Says what the slice's words must be after the call.
    pub fn want(&mut self, lent: Lent, words: &[u32]) {
        put_words(&mut self.wanted[lent.range()], words);
    }

    /// Says what the text must be after the call.
    pub fn want_text(&mut self, lent: Lent, text: &[u8]) {
        self.wanted[lent.range()].copy_from_slice(text);
    }

    /// Says what the answer's words must be after the call.
    pub fn want_answer(&mut self, lent: Lent, words: [u64; ANSWER_WORDS]) {
        self.wanted[lent.range()].copy_from_slice(words.map(u64::to_ne_bytes).as_flattened());
    }

    /// The answer's words as the library left them.
    pub fn found_answer(&self, lent: Lent) -> [u64; ANSWER_WORDS] {
        let (words, _) = self.found.bytes()[lent.range()].as_chunks();
        std::array::from_fn(|index| u64::from_ne_bytes(words[index]))
    }

    /// The words of the slice of this name as the library left them.
    pub fn found_words(&self, name: &str) -> Vec<u32> {
        let lent = self.lent.iter().find(|lent| lent.name == name).expect("a slice of this name is lent");
        let (words, _) = self.found.bytes()[lent.range()].as_chunks();
        words.iter().map(|&word| u32::from_ne_bytes(word)).collect()
    }

    /// Is every byte of the arena as it must be?
    pub fn is_as_wanted(&self) -> bool {
        self.found.bytes() == self.wanted
    }

    /// What is not as it must be, from the arena's start on.
    pub fn differences(&self) -> Vec<Difference> {
        let mut all = Vec::new();
        let mut index = 0;
        while index < ARENA_BYTES {
            let element = index..index + self.width_at(index);
            let (found, wanted) = (&self.found.bytes()[element.clone()], &self.wanted[element.clone()]);
            if found != wanted {
                all.push(Difference { at: self.name_of(index), found: number_of(found), wanted: number_of(wanted) });
            }
            index = element.end;
        }
        all
    }

    /// Names the next `length` elements, and leaves a guard on both sides of them.
    fn place(&mut self, name: &'static str, length: usize, width: usize) -> Lent {
        let lent = Lent { name, start: self.next, length, width };
        self.next = lent.end() + GUARD_BYTES;
        assert!(self.next <= ARENA_BYTES, "the arena is too small for this call");
        self.lent.push(lent);
        lent
    }

    /// The bytes of the element that begins here; 1 in a guard.
    fn width_at(&self, index: usize) -> usize {
        self.lent.iter().find(|lent| lent.range().contains(&index)).map_or(1, |lent| lent.width)
    }

    /// The slice that the byte belongs to, or the slice before the guard that it belongs to.
    fn name_of(&self, index: usize) -> String {
        match self.lent.iter().rev().find(|lent| lent.start <= index) {
            None => "guard before the first slice".to_string(),
            Some(lent) if lent.range().contains(&index) => {
                let kind = if lent.width == WORD { "word" } else { "byte" };
                format!("{} {kind} {}", lent.name, (index - lent.start) / lent.width)
            }
            Some(lent) => format!("guard byte {} after {}", index - lent.end(), lent.name),
        }
    }
}

/// So many words of an output or answer that nothing was written to. None is a guard word or a rule number, and no two
/// are the same.
pub fn unwritten_words(count: usize) -> Vec<u32> {
    (0..count).map(|index| 0xF00D_0000 + index as u32).collect()
}

/// So many bytes of an output that nothing was written to. None stands in a text that a writer writes, and no two
/// neighbours are the same.
pub fn unwritten_text(count: usize) -> Vec<u8> {
    (0..count).map(|index| 0x80 + (index % 125) as u8).collect()
}

/// The guard byte of this index: a byte of a word that is far above every rule number.
fn guard(index: usize) -> u8 {
    (0xC0DE_0000 + (index / WORD) as u32).to_ne_bytes()[index % WORD]
}

/// Puts the words into these bytes, in this machine's order.
fn put_words(bytes: &mut [u8], words: &[u32]) {
    for (four, word) in bytes.chunks_exact_mut(WORD).zip(words) {
        four.copy_from_slice(&word.to_ne_bytes());
    }
}

/// The number that these bytes of one element are; the lowest byte comes first.
fn number_of(bytes: &[u8]) -> u32 {
    bytes.iter().rev().fold(0, |number, &byte| (number << 8) + u32::from(byte))
}
