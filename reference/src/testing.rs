//! What the tests of every layer use to read cases and to count what they meet.

use crate::layers::LAYERS;
use crate::lists::{Case, ABSENT};
use crate::words::Source;

/// A part of a case, read from the front.
pub struct Reader<'a>(pub &'a [u64]);

impl<'a> Reader<'a> {
    pub fn words(&mut self, count: usize) -> &'a [u64] {
        let (front, rest) = self.0.split_at(count);
        self.0 = rest;
        front
    }

    pub fn word(&mut self) -> u64 {
        self.words(1)[0]
    }

    pub fn count(&mut self) -> usize {
        self.word() as usize
    }

    pub fn signed(&mut self) -> i32 {
        i32::try_from(self.word() as i64).unwrap()
    }

    pub fn float(&mut self) -> f64 {
        f64::from_bits(self.word())
    }

    pub fn floats(&mut self, count: usize) -> Vec<f64> {
        self.words(count)
            .iter()
            .map(|&w| f64::from_bits(w))
            .collect()
    }

    pub fn optional(&mut self) -> Option<u64> {
        Some(self.word()).filter(|&w| w != ABSENT)
    }

    /// Nothing may be left.
    pub fn end(self) {
        assert!(self.0.is_empty());
    }
}

/// A relation between the numbers of a case, its name, and in how many cases it must stand once.
pub type Relation<T> = (&'static str, usize, fn(&T) -> bool);

pub fn must_be_common<T>(op: u64, count: usize, read: fn(&Case) -> T, relations: &[Relation<T>]) {
    let layer = LAYERS
        .iter()
        .find(|l| l.ops.iter().any(|known| known.0 == op));
    let fill = layer.unwrap().fill;
    let mut src = Source::new(op);
    let mut case = Case::default();
    let mut found = vec![0; relations.len()];
    for _ in 0..count {
        fill(op, &mut src, &mut case);
        let seen = read(&case);
        for (times, (_, _, holds)) in found.iter_mut().zip(relations) {
            *times += holds(&seen) as usize;
        }
    }
    for (times, (name, ..)) in found.iter().zip(relations) {
        println!("{op} {name}: one in {}", count / (*times).max(1));
    }
    for (times, (name, rarest, _)) in found.iter().zip(relations) {
        assert!(times * rarest >= count, "{op} {name}: {times} of {count}");
    }
}

/// All that is wrong with a call, each with the number of its refusal.
pub struct Any {
    faults: Vec<(u64, &'static str)>,
    /// The words that a refused call leaves as they were.
    kept: Vec<u64>,
    /// A name for what an accepted call answers, where a test asks for it.
    pub answer: Option<&'static str>,
}

impl Any {
    pub fn new() -> Self {
        Any {
            faults: Vec::new(),
            kept: Vec::new(),
            answer: None,
        }
    }

    pub fn test(&mut self, no: u64, name: &'static str, wrong: bool) {
        if wrong {
            self.faults.push((no, name));
        }
    }

    /// Nothing else is wrong.
    pub fn only(&self, name: &str) -> bool {
        self.faults.len() == 1 && self.has(name)
    }

    pub fn has(&self, name: &str) -> bool {
        self.faults.iter().any(|fault| fault.1 == name)
    }

    pub fn accepted(&self) -> bool {
        self.faults.is_empty()
    }

    pub fn number(&self) -> u64 {
        self.faults.iter().map(|fault| fault.0).min().unwrap_or(0)
    }

    /// Faults of the first number stand beside one of the second.
    pub fn order(&self, first: u64, second: u64) -> bool {
        self.number() == first && self.faults.iter().any(|fault| fault.0 == second)
    }

    /// The lengths are counts before the slices; their names are the faults'.
    pub fn lengths(&mut self, lens: &[u64], right: &[(&'static str, u128)]) {
        for (&len, &(name, right)) in lens.iter().zip(right) {
            self.test(2, name, len as u128 != right);
        }
    }

    pub fn keep(&mut self, input: &[u64]) {
        self.kept.extend(input);
    }

    /// Reads the rest of the output, which must be what was kept if the call is refused.
    pub fn end(&self, mut to: Reader) {
        let rest = to.words(self.kept.len());
        assert!(self.accepted() || rest == self.kept);
        to.end();
    }
}
