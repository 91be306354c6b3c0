//! A row table as a caller may hand it on: sizes and lengths right or wrong.

use super::cursor::MOST_ROWS;
use crate::lengths::{outside, resize, wrong, LARGEST};
use crate::lists::Case;
use crate::words::Source;

/// The table, the point and, where a call has one, the gradient, in this order.
pub struct Held {
    pub n: u64,
    pub rows: u64,
    pub slices: Vec<Vec<f64>>,
    /// The n and the count of rows that were right.
    drawn: (usize, usize),
}

impl Held {
    pub fn new(n: usize, slices: Vec<Vec<f64>>) -> Self {
        let rows = slices[0].len() / n;
        Held {
            n: n as u64,
            rows: rows as u64,
            slices,
            drawn: (n, rows),
        }
    }

    /// Refusals 1 and 2. The product of rows and n has no bound.
    pub fn refusal(&self) -> u64 {
        let n = self.n as u128;
        let right = [self.rows as u128 * n, n, n];
        if !(2..=LARGEST).contains(&self.n) {
            1
        } else if (self.slices.iter().zip(right)).any(|(part, len)| part.len() as u128 != len) {
            2
        } else {
            0
        }
    }

    pub fn rows_are_legal(&self) -> bool {
        (1..=MOST_ROWS as u64).contains(&self.rows)
    }

    pub fn spoil_size(&mut self, src: &mut Source) {
        self.n = outside(src, 2);
        // Right for n, or for what is left of n if its high bits are lost.
        let seen = if src.rng.coin() { self.n } else { self.n & 63 };
        let seen = seen.min(LARGEST + 1) as usize;
        let lens = [self.drawn.1 * seen, seen, seen];
        for (part, len) in self.slices.iter_mut().zip(lens) {
            resize(src, part, len);
        }
    }

    pub fn spoil_length(&mut self, src: &mut Source) {
        let at = src.rng.below(self.slices.len() as u64) as usize;
        let len = wrong(src, self.drawn.0, self.slices[at].len());
        resize(src, &mut self.slices[at], len);
    }

    /// Another count of rows. The table has that many, or the old length where a product or a
    /// number that loses its high bits would still say so.
    pub fn spoil_rows(&mut self, src: &mut Source) {
        let (n, rows) = self.drawn;
        let count = match src.rng.below(8) {
            0 => 0,
            1 if n <= 4 => MOST_ROWS as usize + 1,
            2 if n <= 4 => MOST_ROWS as usize + 2,
            3 => rows + 1,
            4 => rows - 1,
            5 => return self.rows = (1 << 32) + rows as u64,
            6 => return self.rows = src.rng.next(),
            _ => {
                // For a power of two the product loses its high part and is right.
                let times = u64::MAX / n as u64 + (n as u64).is_power_of_two() as u64;
                return self.rows = times + rows as u64;
            }
        };
        self.rows = count as u64;
        if src.rng.coin() || count == 0 || count > MOST_ROWS as usize {
            resize(src, &mut self.slices[0], count * n);
        }
    }

    pub fn take_lengths(&self, case: &mut Case) {
        self.slices.iter().for_each(|s| case.take(s.len() as u64));
    }

    pub fn take_slices(&self, case: &mut Case) {
        self.slices.iter().for_each(|s| case.take_floats(s));
    }
}
