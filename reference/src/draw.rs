//! Vectors and cuts drawn to find faults, for every layer.

use crate::words::{scale, Source};

// Vectors

/// 2 to 32, small ones more often so that a list stays short.
pub fn dimension(src: &mut Source) -> usize {
    if src.rng.coin() {
        src.rng.range(2, 6) as usize
    } else {
        src.rng.range(2, 32) as usize
    }
}

/// A vector of one kind of number, sometimes with one entry of another.
pub fn vector(src: &mut Source, n: usize) -> Vec<f64> {
    let kind = src.rng.below(8);
    let mut v: Vec<f64> = (0..n).map(|_| entry(src, kind)).collect();
    if src.rng.once_in(4) {
        let at = src.rng.below(n as u64) as usize;
        v[at] = src.any();
    }
    v
}

fn entry(src: &mut Source, kind: u64) -> f64 {
    let x = match kind {
        0 => return src.any(),
        1 => src.simple(),
        2 => src.zero(),
        3 => src.wide(-540, -480), // products run out of the range below
        4 => src.wide(480, 520),   // and above
        5 => src.wide(-60, 60),    // sums lose the small ones
        _ => src.positive(),
    };
    src.either_sign(x)
}

pub fn many(src: &mut Source, count: usize, one: fn(&mut Source) -> f64) -> Vec<f64> {
    (0..count).map(|_| one(src)).collect()
}

/// Few halves, so that sums are exact and values meet.
pub fn halves(src: &mut Source) -> f64 {
    let x = src.rng.below(7) as f64 / 2.0;
    src.either_sign(x)
}

/// A row chosen against the vector it is multiplied with.
pub fn row_against(src: &mut Source, x: &[f64]) -> Vec<f64> {
    let n = x.len();
    match src.rng.below(6) {
        0 => minus_zeros(x),
        1 => {
            // One product is plus zero, often the first, and the others minus zero.
            let mut row = minus_zeros(x);
            let at = if src.rng.coin() {
                0
            } else {
                src.rng.below(n as u64) as usize
            };
            row[at] = -row[at];
            row
        }
        2 => cancelling(src, x),
        3 => {
            // Minus zeros round a pair that cancels.
            let mut row = minus_zeros(x);
            let at = src.rng.below(n as u64 - 1) as usize;
            row[at] = x[at + 1];
            row[at + 1] = -x[at];
            row
        }
        _ => vector(src, n),
    }
}

/// Zeros whose products with x are minus zero wherever x is finite.
pub fn minus_zeros(x: &[f64]) -> Vec<f64> {
    x.iter()
        .map(|v| if v.is_sign_negative() { 0.0 } else { -0.0 })
        .collect()
}

/// Each product is followed by the same one with the other sign. Both are rounded, so the
/// sum of the two is zero; an addition fused with its product would leave the rounding error.
fn cancelling(src: &mut Source, x: &[f64]) -> Vec<f64> {
    let mut row = vector(src, x.len());
    for at in (0..x.len() - 1).step_by(2) {
        row[at] = x[at + 1];
        row[at + 1] = -x[at];
    }
    row
}

// Cuts

/// A beta and a tsq that stand to each other in a way some test asks about.
pub fn single(src: &mut Source, n: usize) -> (f64, f64) {
    match src.rng.below(16) {
        0 => (src.any(), src.any()),
        1 => (src.any(), src.positive()),
        2 => (src.ordinary(), src.any()),
        3 => {
            // tsq is beta² or beside it.
            let beta = src.ordinary();
            (beta, src.neighbour(beta * beta))
        }
        4 => {
            let beta = src.wide(-537, 511);
            let tsq = src.neighbour(beta * beta);
            (src.either_sign(beta), tsq)
        }
        5 | 6 => {
            // beta is tau or beside it.
            let tsq = if src.rng.coin() {
                src.square()
            } else {
                src.positive()
            };
            let beta = src.neighbour(tsq.sqrt());
            (src.either_sign(beta), tsq)
        }
        7 => {
            // eta is exactly zero, or beside it.
            let beta = src.short();
            let tau = n as f64 * beta;
            (src.neighbour(-beta), tau * tau)
        }
        8 => {
            let tsq = src.positive();
            let beta = -(tsq.sqrt() / n as f64);
            (src.neighbour(beta), tsq)
        }
        9 => tiny(src),
        10 => {
            // beta² runs out of the range above.
            let beta = src.wide(505, 520);
            let tsq = src.pick_of_two(f64::INFINITY, f64::MAX);
            (src.either_sign(beta), src.neighbour(tsq))
        }
        11 => (src.ordinary(), src.pick_of_two(0.0, -1.0)),
        12 => (src.zero(), src.pick_of_two(0.0, 1.0)),
        13 => {
            // Just one of the two is a zero, an infinity or NaN.
            let (beta, tsq) = within(src);
            if src.rng.coin() {
                (src.special(), tsq)
            } else {
                (beta, src.special())
            }
        }
        _ => within(src),
    }
}

/// beta² is zero or subnormal although beta is not zero; tsq is of its size.
fn tiny(src: &mut Source) -> (f64, f64) {
    let beta = src.wide(-560, -520);
    let tsq = match src.rng.below(3) {
        0 => src.zero(),
        1 => src.subnormal(),
        _ => src.neighbour(beta * beta),
    };
    (src.either_sign(beta), tsq)
}

/// An ordinary cut: beta between minus tau and tau, or a little outside. Sometimes it is made
/// larger or smaller as a whole, so that a square or a product of two squares leaves the range.
pub fn within(src: &mut Source) -> (f64, f64) {
    let k = if src.rng.once_in(4) { size(src) } else { 0 };
    let tsq = scale(src.positive(), 2 * k);
    (part(src) * tsq.sqrt(), tsq)
}

/// The power of two of a beta whose square, or the square's square, is near an end of the range.
fn size(src: &mut Source) -> i32 {
    let ends = [(-540, -500), (-275, -245), (245, 258), (500, 513)];
    let (lo, hi) = src.rng.pick(&ends);
    src.rng.range(lo, hi) as i32
}

/// From −1.1 to 1.1.
pub fn part(src: &mut Source) -> f64 {
    src.rng.range(-1100, 1100) as f64 / 1000.0
}

/// A cut of one number or two.
pub fn choice(src: &mut Source, n: usize) -> (f64, Option<f64>, f64) {
    if src.rng.once_in(3) {
        let (b0, tsq) = single(src, n);
        (b0, None, tsq)
    } else {
        let (b0, b1, tsq) = parallel(src, n);
        (b0, Some(b1), tsq)
    }
}

/// Two betas and a tsq. Betas as an oracle gives them stand in half of the cases.
pub fn parallel(src: &mut Source, n: usize) -> (f64, f64, f64) {
    if src.rng.coin() {
        let (b0, b1, tsq) = band(src, n);
        // Sometimes just one of the three is a zero, an infinity or NaN.
        return match src.rng.below(40) {
            0 => (src.special(), b1, tsq),
            1 => (b0, src.special(), tsq),
            2 => (b0, b1, src.special()),
            _ => (b0, b1, tsq),
        };
    }
    let (b0, tsq) = single(src, n);
    let b1 = match src.rng.below(12) {
        0 => b0,
        1 => src.neighbour(b0),
        2 => b0 + src.positive(),
        3 => b0 - src.positive(),
        4 => -b0,
        5 => src.neighbour(tsq.sqrt()),
        6 => src.neighbour(-tsq / (n as f64 * b0)), // eta is zero or close to it
        7 => src.zero(),
        8 => src.any(),
        9 => src.ordinary(),
        10 => b0 / 2.0,
        _ => return (src.any(), b0, tsq),
    };
    (b0, b1, tsq)
}

/// Betas as an oracle gives them, and the same with an eta that is exactly zero.
fn band(src: &mut Source, n: usize) -> (f64, f64, f64) {
    match src.rng.below(8) {
        0 => {
            // tsq = n p q and the betas are -p and q, all exact.
            let p = src.short();
            let q = p * src.rng.range(1, n as i64) as f64;
            let tsq = n as f64 * p * q;
            (-p, q, src.neighbour(tsq))
        }
        1 => {
            // Both below zero: beta1² may exceed tsq and the parallel form is still used.
            let (b0, tsq) = (-src.positive(), src.positive());
            (b0, b0 + src.positive() * 0.1, tsq)
        }
        2 => {
            // beta1 is zero and tsq is at most beta1²: no way back to one beta.
            let (b0, tsq) = (-src.positive(), src.pick_of_two(0.0, -1.0));
            (b0, src.zero(), tsq * src.positive())
        }
        _ => {
            let (a, tsq) = within(src);
            let b = part(src) * tsq.sqrt();
            if src.rng.once_in(8) {
                (a, b, tsq)
            } else {
                (a.min(b), a.max(b), tsq)
            }
        }
    }
}
