// Lists to lend: each stands in the middle of a larger allocation, with guard words before and after it that no one may change.

use std::fmt::Debug;

use super::plain::Tally;

// An odd number before, so that the list's start is aligned for its words and for nothing larger.
const BEFORE: usize = 13;
const AFTER: usize = 16;

pub trait Word: Copy + PartialEq + Debug {
    const GUARD: Self;
}

impl Word for u8 {
    const GUARD: u8 = 0xA5;
}

impl Word for u16 {
    const GUARD: u16 = 0xA5C3;
}

impl Word for u32 {
    const GUARD: u32 = 0xA5C3_96E1;
}

impl Word for Tally {
    const GUARD: Tally = Tally { outer: 0xA5C3_96E1, inner: 0xC396_E1A5, waits: 0x96E1_A5C3, moves: 0xE1A5_C396 };
}

pub struct Lent<T> {
    all: Vec<T>,
}

impl<T: Word> Lent<T> {
    pub fn new(words: &[T]) -> Lent<T> {
        let mut all = Vec::with_capacity(BEFORE + words.len() + AFTER);
        all.resize(BEFORE, T::GUARD);
        all.extend_from_slice(words);
        all.resize(BEFORE + words.len() + AFTER, T::GUARD);
        Lent { all }
    }

    pub fn words(&self) -> &[T] {
        &self.all[BEFORE..self.all.len() - AFTER]
    }

    pub fn words_mut(&mut self) -> &mut [T] {
        let end = self.all.len() - AFTER;
        &mut self.all[BEFORE..end]
    }

    /// The first difference from the words expected, guards included, told in words.
    pub fn difference(&self, what: &str, expected: &[T]) -> Option<String> {
        if let Some(index) = (0..expected.len()).find(|&index| self.words()[index] != expected[index]) {
            return Some(format!("{what}, word {index}: plain {:?}, ours {:?}", expected[index], self.words()[index]));
        }
        if self.all[..BEFORE].iter().any(|&word| word != T::GUARD) {
            return Some(format!("{what}: a word before it was changed"));
        }
        if self.all[BEFORE + expected.len()..].iter().any(|&word| word != T::GUARD) {
            return Some(format!("{what}: a word after it was changed"));
        }
        None
    }
}
