//! Floats chosen to find faults: every kind of number, and numbers that stand next to a border.

use crate::rng::Rng;

/// All NaNs count as one; this is the one that is written.
pub const NAN: u64 = 0x7FF8_0000_0000_0000;
const LARGEST: u64 = 0x7FEF_FFFF_FFFF_FFFF;
const LEAST_NORMAL: u64 = 0x0010_0000_0000_0000;
const FRACTION: u64 = LEAST_NORMAL - 1;
const INFINITY: u64 = 0x7FF0_0000_0000_0000;

/// The bits as they are written.
pub fn word(x: f64) -> u64 {
    if x.is_nan() {
        NAN
    } else {
        x.to_bits()
    }
}

/// m × 2^e for a whole m below 2^53.
fn whole(m: u64, e: i32) -> f64 {
    scale(m as f64, e)
}

/// x × 2^e; the steps are exact where the result is a normal number.
pub fn scale(mut x: f64, e: i32) -> f64 {
    let mut left = e;
    while left != 0 {
        let step = left.clamp(-1000, 1000);
        x *= power(step);
        left -= step;
    }
    x
}

/// 2^e for a normal result.
fn power(e: i32) -> f64 {
    f64::from_bits(((e + 1023) as u64) << 52)
}

pub struct Source {
    pub rng: Rng,
}

impl Source {
    pub fn new(seed: u64) -> Self {
        Source {
            rng: Rng::new(seed),
        }
    }

    /// Any float at all, with the rare kinds often.
    pub fn any(&mut self) -> f64 {
        let x = match self.rng.below(12) {
            0 => f64::from_bits(self.rng.next()),
            1 | 2 => self.special(),
            3 => self.subnormal(),
            4 => self.border(),
            5 => self.near_power(),
            6 => self.simple(),
            7 => self.near_one(),
            8 => self.wide(-1074, 1023),
            9 => self.wide(-540, 512), // its square leaves the normal range at one end
            _ => self.ordinary(),
        };
        self.either_sign(x)
    }

    /// Zeros, infinities and NaN.
    pub fn special(&mut self) -> f64 {
        let bits = self.rng.pick(&[0, 0, INFINITY, NAN]);
        let x = f64::from_bits(bits);
        self.either_sign(x)
    }

    pub fn zero(&mut self) -> f64 {
        self.either_sign(0.0)
    }

    /// Numbers below the least normal one, of any length.
    pub fn subnormal(&mut self) -> f64 {
        let bits = match self.rng.below(4) {
            0 => 1 + self.rng.below(4),
            1 => FRACTION - self.rng.below(4),
            2 => 1 << self.rng.below(52),
            _ => (self.rng.next() >> 12) >> self.rng.below(52),
        };
        f64::from_bits(bits.max(1))
    }

    /// The ends of the normal range and their neighbours.
    fn border(&mut self) -> f64 {
        let at = self
            .rng
            .pick(&[LEAST_NORMAL, LARGEST - 1, 2 * LEAST_NORMAL]);
        self.neighbour(f64::from_bits(at))
    }

    /// A power of two of any exponent, or its neighbour.
    pub fn near_power(&mut self) -> f64 {
        let e = self.rng.range(-1074, 1023) as i32;
        let x = whole(1, e);
        self.neighbour(x)
    }

    /// Small whole numbers and simple fractions.
    pub fn simple(&mut self) -> f64 {
        let top = self.rng.below(33) as f64;
        let bottom = self
            .rng
            .pick(&[1.0, 1.0, 2.0, 3.0, 4.0, 5.0, 8.0, 10.0, 100.0]);
        top / bottom
    }

    pub fn near_one(&mut self) -> f64 {
        let off = self.rng.range(-8, 8);
        f64::from_bits((1.0f64.to_bits() as i64 + off) as u64)
    }

    /// A positive number with full fraction and an exponent in the range.
    pub fn wide(&mut self, lo: i64, hi: i64) -> f64 {
        let m = (1 << 52) | (self.rng.next() >> 12);
        let e = self.rng.range(lo, hi);
        whole(m, (e - 52) as i32)
    }

    /// 0.01 to 10, positive.
    pub fn positive(&mut self) -> f64 {
        let part = (self.rng.next() >> 11) as f64 / power(53);
        match self.rng.below(4) {
            0 => 0.01 + part * 0.09,
            1 => 0.1 + part * 0.9,
            2 => 1.0 + part * 9.0,
            _ => (1.0 + (part * 999.0).floor()) / 100.0,
        }
    }

    /// 0.01 to 10, of either sign.
    pub fn ordinary(&mut self) -> f64 {
        let x = self.positive();
        self.either_sign(x)
    }

    /// A positive number of few bits, whose small products are exact.
    pub fn short(&mut self) -> f64 {
        let m = 1 + self.rng.below(1 << 20);
        let e = self.rng.range(-30, 10) as i32;
        whole(m, e)
    }

    pub fn either_sign(&mut self, x: f64) -> f64 {
        let signed = if self.rng.coin() { -x } else { x };
        f64::from_bits(word(signed))
    }

    pub fn pick_of_two(&mut self, a: f64, b: f64) -> f64 {
        self.rng.pick(&[a, b])
    }

    /// The number itself, or the next one on either side.
    pub fn neighbour(&mut self, x: f64) -> f64 {
        match self.rng.below(3) {
            0 => x.next_down(),
            1 => x,
            _ => x.next_up(),
        }
    }

    /// An input of the root: any float, and numbers near which a root turns to the next float.
    pub fn square(&mut self) -> f64 {
        match self.rng.below(10) {
            0 => self.any(),
            1 => self.subnormal(),
            2 => self.near_power(),
            3 => self.wide(-1074, 1023),
            4 => self.perfect_square(),
            5 => self.square_of_float(),
            6 | 7 => self.square_of_midpoint(),
            8 => self.hard_square(),
            _ => f64::from_bits(self.rng.below(INFINITY)),
        }
    }

    /// s² × 4^k, exact for s below 2^26, and its neighbours.
    fn perfect_square(&mut self) -> f64 {
        let s = 1 + (self.rng.next() >> 38 >> self.rng.below(26));
        let k = self.rng.range(-537, 485) as i32;
        let x = whole(s * s, 2 * k);
        self.neighbour(x)
    }

    /// A float's square rounded, and its neighbours: the root lies close to that float.
    fn square_of_float(&mut self) -> f64 {
        let r = self.wide(-537, 511);
        self.neighbour(r * r)
    }

    /// The floats just below and just above the square of a midpoint of two floats.
    fn square_of_midpoint(&mut self) -> f64 {
        let s = (1 << 52) | (self.rng.next() >> 12);
        let t_sq = square(2 * s + 1);
        let cut = 128 - t_sq.leading_zeros() - 53;
        let below = (t_sq >> cut) as u64; // t is odd, so the square is not a float
        let m = if self.rng.coin() { below } else { below + 1 };
        let k = self.rng.range(-590, 458) as i32;
        whole(m, cut as i32 - 2 + 2 * k)
    }

    /// The hardest inputs: t / 2 is a midpoint of two floats and the root is t / 2 less almost nothing.
    fn hard_square(&mut self) -> f64 {
        let size = 1 << self.rng.below(20);
        let c = 8 * self.rng.range(-size, size) + 1;
        let (_, m, cut) = hard_pair(c, self.rng.coin());
        let k = self.rng.range(-590, 458) as i32;
        whole(m, cut as i32 - 2 + 2 * k)
    }
}

/// An odd t of 54 bits, an m of 53 bits and a cut with t² = m × 2^cut + c.
fn hard_pair(c: i64, second: bool) -> (u64, u64, u32) {
    let low = odd_root(c as u64) & ((1 << 54) - 1);
    let first = low.max((1 << 54) - low); // its square is c modulo 2^55
    let other = (1 << 54) - first + (1 << 53); // its square is c modulo 2^54 only
    let t = if second && square(other) >> 107 == 0 {
        other
    } else {
        first
    };
    let cut = 128 - square(t).leading_zeros() - 53;
    let m = ((square(t) as i128 - c as i128) >> cut) as u64;
    (t, m, cut)
}

fn square(t: u64) -> u128 {
    t as u128 * t as u128
}

/// The t with t² = c modulo 2^56, for c = 1 modulo 8; each round makes more low bits right.
fn odd_root(c: u64) -> u64 {
    let mut t = 1u64;
    for bit in 3..56 {
        if (t.wrapping_mul(t) ^ c) >> bit & 1 == 1 {
            t += 1 << (bit - 1);
        }
    }
    t & ((1 << 55) - 1)
}

#[cfg(test)]
mod tests {
    use super::*;

    #[test]
    fn hard_pairs_are_exact() {
        for k in -1000..1000 {
            for second in [false, true] {
                let c = 8 * k + 1;
                let (t, m, cut) = hard_pair(c, second);
                assert_eq!(t >> 53, 1);
                assert_eq!(m >> 52, 1);
                assert_eq!(((m as i128) << cut) + c as i128, square(t) as i128);
            }
        }
    }

    #[test]
    fn odd_root_is_a_root() {
        for k in -64..64i64 {
            let c = (8 * k + 1) as u64;
            let t = odd_root(c);
            assert_eq!(t.wrapping_mul(t) << 8, c << 8);
        }
    }
}
