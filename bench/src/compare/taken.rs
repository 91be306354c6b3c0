//! The input words of a case, taken one after the other.

use generator::lists::{unpacked, ABSENT};

pub struct Taken<'a> {
    left: &'a [u64],
}

impl<'a> Taken<'a> {
    pub fn new(words: &'a [u64]) -> Self {
        Taken { left: words }
    }

    fn words(&mut self, count: usize) -> &'a [u64] {
        let (front, rest) = self.left.split_at(count);
        self.left = rest;
        front
    }

    pub fn word(&mut self) -> u64 {
        self.words(1)[0]
    }

    pub fn size(&mut self) -> usize {
        self.word() as usize
    }

    pub fn sizes<const K: usize>(&mut self) -> [usize; K] {
        [0; K].map(|_| self.size())
    }

    pub fn signed(&mut self) -> i32 {
        self.word() as i32
    }

    pub fn float(&mut self) -> f64 {
        f64::from_bits(self.word())
    }

    pub fn optional(&mut self) -> Option<f64> {
        let word = self.word();
        (word != ABSENT).then(|| f64::from_bits(word))
    }

    pub fn floats(&mut self, count: usize) -> Vec<f64> {
        let words = self.words(count).iter();
        words.map(|&w| f64::from_bits(w)).collect()
    }

    pub fn bytes(&mut self, count: usize) -> Vec<u8> {
        unpacked(self.words(count.div_ceil(8)), count as u64)
    }

    /// All words must have been taken.
    pub fn end(self) {
        assert!(self.left.is_empty(), "{} words are left", self.left.len());
    }
}
