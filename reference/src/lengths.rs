//! Calls of any lengths: a size and slices as a caller may hand them on, right or wrong.
//!
//! The refusals are the project's own, not the Rust's: what is expected comes from the scope's
//! table. 1: the size is out of its range, tested first. 2: a length is not what the size says.
//! A refused call leaves everything as it was. An accepted one gives what the Rust gives.

use crate::draw::vector;
use crate::words::Source;

/// No size may be above this.
pub const LARGEST: u64 = 32;

const OUTSIDE: [u64; 10] = [
    0,
    1,
    33,
    34,
    1 << 32,
    (1 << 32) + 2, // 2 if its high half is lost
    (1 << 32) + 32,
    1 << 63, // its square is 0 if the high half is lost
    u64::MAX,
    u64::MAX - 31,
];

/// A size, and the lengths of the slices that come with it.
pub struct Lengths {
    pub n: u64,
    pub of: Vec<usize>,
}

impl Lengths {
    /// Leaves half of the calls as they are and makes the size or one length of the others wrong.
    /// `least` is the smallest size, and `right` gives the lengths that a size asks for.
    pub fn spoil(&mut self, src: &mut Source, least: u64, right: impl Fn(usize) -> Vec<usize>) {
        match src.rng.below(8) {
            0 => {
                self.n = outside(src, least);
                // Right for n, or for what is left of n if its high bits are lost.
                let seen = if src.rng.coin() { self.n } else { self.n & 63 };
                self.of = right(seen.min(LARGEST + 1) as usize);
            }
            1..=3 => {
                // Just one length is wrong, so that no test can stand in for another.
                let at = src.rng.below(self.of.len() as u64) as usize;
                self.of[at] = wrong(src, self.n as usize, self.of[at]);
            }
            _ => {}
        }
    }

    pub fn refusal(&self, least: u64, right: impl Fn(usize) -> Vec<usize>) -> u64 {
        if !(least..=LARGEST).contains(&self.n) {
            1
        } else if self.of != right(self.n as usize) {
            2
        } else {
            0
        }
    }
}

/// The lengths of vectors and of square matrices, as `squares` says of each slice.
pub fn of_shapes(n: usize, squares: &[bool]) -> Vec<usize> {
    squares
        .iter()
        .map(|&sq| if sq { n * n } else { n })
        .collect()
}

/// A size that is out of its range.
pub fn outside(src: &mut Source, least: u64) -> u64 {
    loop {
        let n = if src.rng.once_in(8) {
            src.rng.next()
        } else {
            src.rng.pick(&OUTSIDE)
        };
        if !(least..=LARGEST).contains(&n) {
            return n;
        }
    }
}

/// Another length than the right one, mostly beside it.
pub fn wrong(src: &mut Source, n: usize, len: usize) -> usize {
    let square = len == n * n;
    let other = match src.rng.below(8) {
        0 => 0,
        1 | 2 => len.saturating_sub(1),
        3 | 4 => len + 1,
        5 if square => n * (n + 1),
        6 if square => n,
        5 => n * n,
        _ => src.rng.below(41) as usize,
    };
    if other == len {
        len + 1
    } else {
        other
    }
}

/// What an argument or an output holds before the call.
pub fn contents(src: &mut Source, len: usize) -> Vec<f64> {
    if len == 0 {
        return Vec::new();
    }
    vector(src, len)
}

/// Gives a slice another length; what it held stays in front.
pub fn resize(src: &mut Source, held: &mut Vec<f64>, len: usize) {
    held.truncate(len);
    while held.len() < len {
        held.push(src.any());
    }
}

/// Spoils a call whose slices are right, and says which refusal is expected then.
pub fn spoil_call(
    src: &mut Source,
    n: &mut u64,
    least: u64,
    right: impl Fn(usize) -> Vec<usize>,
    held: &mut [Vec<f64>],
) -> u64 {
    let of = held.iter().map(Vec::len).collect();
    let mut lengths = Lengths { n: *n, of };
    lengths.spoil(src, least, &right);
    *n = lengths.n;
    for (part, &len) in held.iter_mut().zip(&lengths.of) {
        resize(src, part, len);
    }
    lengths.refusal(least, right)
}
