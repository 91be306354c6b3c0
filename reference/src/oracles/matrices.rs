//! Matrices drawn so that a factor runs through, or stops at a chosen pivot.

use crate::draw::{halves, many, vector};
use crate::words::{scale, Source};

/// 1 to 32, small ones more often so that a list stays short.
pub fn order(src: &mut Source) -> usize {
    let most = match src.rng.below(20) {
        0 => 32,
        1 | 2 => 12,
        _ => 5,
    };
    src.rng.range(1, most) as usize
}

/// A matrix to be factored. The upper triangle is often another, since it is not read.
pub fn matrix(src: &mut Source, m: usize) -> Vec<f64> {
    let mut a = match src.rng.below(16) {
        0..=5 => exact(src, m),
        6..=8 => dominant(src, m),
        9 => symmetric(src, m),
        10 => rank_one(src, m),
        11 => hilbert(m),
        12 => zero_row(src, m),
        13 => vector(src, m * m),
        _ => spoiled(src, m),
    };
    if src.rng.once_in(8) {
        let e = src.rng.pick(&[-1060, -1020, -500, 500, 1010, 1020]);
        a.iter_mut().for_each(|x| *x = scale(*x, e));
    }
    if src.rng.coin() {
        let other = vector(src, m * m);
        for i in 0..m {
            a[i * m + i + 1..(i + 1) * m].copy_from_slice(&other[i * m + i + 1..(i + 1) * m]);
        }
    }
    a
}

/// L D Lᵀ of small whole numbers, so that every step of the factor is exact. D is positive up to
/// a pivot that stops the factor, if there is one.
pub fn exact(src: &mut Source, m: usize) -> Vec<f64> {
    let stop = if src.rng.coin() { m } else { stop(src, m) };
    let mut d: Vec<f64> = (0..m).map(|_| src.rng.range(1, 8) as f64).collect();
    for (i, pivot) in d.iter_mut().enumerate().skip(stop) {
        *pivot = match src.rng.below(3) {
            0 => 0.0,
            1 => -*pivot,
            _ if i == stop => -*pivot,
            _ => *pivot,
        };
    }
    let l = unit_lower(src, m);
    filled(m, |i, j| {
        (0..=j).map(|k| l[i * m + k] * d[k] * l[j * m + k]).sum()
    })
}

/// The first, the last or any pivot.
pub fn stop(src: &mut Source, m: usize) -> usize {
    match src.rng.below(4) {
        0 => 0,
        1 => m - 1,
        _ => src.rng.below(m as u64) as usize,
    }
}

fn unit_lower(src: &mut Source, m: usize) -> Vec<f64> {
    let mut l = vec![0.0; m * m];
    for i in 0..m {
        for j in 0..i {
            l[i * m + j] = src.rng.range(-2, 2) as f64;
        }
        l[i * m + i] = 1.0;
    }
    l
}

/// A symmetric matrix from the entries of its lower triangle.
fn filled(m: usize, mut lower: impl FnMut(usize, usize) -> f64) -> Vec<f64> {
    let mut a = vec![0.0; m * m];
    for i in 0..m {
        for j in 0..=i {
            a[i * m + j] = lower(i, j);
            a[j * m + i] = a[i * m + j];
        }
    }
    a
}

/// Definite, since the diagonal outweighs the rest.
pub fn dominant(src: &mut Source, m: usize) -> Vec<f64> {
    filled(m, |i, j| {
        let x = src.positive();
        if i == j {
            x + 10.0 * m as f64
        } else {
            src.either_sign(x)
        }
    })
}

fn symmetric(src: &mut Source, m: usize) -> Vec<f64> {
    filled(m, |_, _| src.ordinary())
}

/// v vᵀ, rounded: the second pivot is zero or a rounding error of either sign.
fn rank_one(src: &mut Source, m: usize) -> Vec<f64> {
    let v = many(src, m, Source::ordinary);
    filled(m, |i, j| v[i] * v[j])
}

/// Definite, yet its pivots shrink until rounding decides their sign.
fn hilbert(m: usize) -> Vec<f64> {
    filled(m, |i, j| 1.0 / (i + j + 1) as f64)
}

/// A row of zeros, whose pivot is plus or minus zero.
fn zero_row(src: &mut Source, m: usize) -> Vec<f64> {
    let mut a = dominant(src, m);
    let i = stop(src, m);
    a[i * m..(i + 1) * m].fill(0.0);
    a[i * m + i] = src.zero();
    a
}

/// Definite but for an entry or two.
fn spoiled(src: &mut Source, m: usize) -> Vec<f64> {
    let mut a = if src.rng.coin() {
        dominant(src, m)
    } else {
        exact(src, m)
    };
    for _ in 0..1 + src.rng.below(2) {
        let i = stop(src, m);
        let j = if src.rng.coin() {
            i
        } else {
            src.rng.below(i as u64 + 1) as usize
        };
        a[i * m + j] = if src.rng.coin() {
            src.special()
        } else {
            src.any()
        };
        a[j * m + i] = a[i * m + j];
    }
    a
}

/// A matrix that is multiplied with a vector; it need not be symmetric.
pub fn factor_free(src: &mut Source, m: usize) -> Vec<f64> {
    match src.rng.below(4) {
        0 => vector(src, m * m),
        1 => matrix(src, m),
        2 => many(src, m * m, Source::ordinary),
        _ => many(src, m * m, halves),
    }
}
