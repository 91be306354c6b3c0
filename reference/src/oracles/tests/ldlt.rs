//! Operations 50 to 53.

use super::{is_minus_zero, is_plus_zero, must_be_common, Reader, Relation};
use crate::lists::Case;
use crate::words::word;

fn same(a: &[f64], b: &[f64]) -> bool {
    a.iter().map(|&x| word(x)).eq(b.iter().map(|&x| word(x)))
}

/// A case of 50, or of 53 after its matrix was put together.
struct Factor {
    m: usize,
    mat: Vec<f64>,
    storage: Vec<f64>,
    stopped: bool,
    end: usize,
    after: Vec<f64>,
}

impl Factor {
    fn pivot(&self, i: usize) -> f64 {
        self.after[i * self.m + i]
    }

    /// The pivot that stopped the factor.
    fn last(&self) -> Option<f64> {
        self.stopped.then(|| self.pivot(self.end - 1))
    }

    fn any_pivot(&self, holds: fn(f64) -> bool) -> bool {
        !self.stopped && (0..self.m).any(|i| holds(self.pivot(i)))
    }

    /// Whether some pivot is a millionth of its entry, or less.
    fn shrinks(&self) -> bool {
        let reached = if self.stopped { self.end } else { self.m };
        (0..reached).any(|i| {
            let (pivot, entry) = (self.pivot(i).abs(), self.mat[i * self.m + i].abs());
            pivot > 0.0 && pivot < 1e-6 * entry
        })
    }

    /// The factor stops at the first pivot at or below zero, and only there.
    fn check(&self) {
        let passed = if self.stopped { self.end - 1 } else { self.m };
        assert!((0..passed).all(|i| self.pivot(i) > 0.0 || self.pivot(i).is_nan()));
        assert!(self.last().is_none_or(|pivot| pivot <= 0.0));
        let end = if self.stopped { self.end } else { self.m };
        for i in end..self.m {
            let row = i * self.m..(i + 1) * self.m;
            assert!(same(&self.after[row.clone()], &self.storage[row]));
        }
    }
}

fn read_factor(case: &Case) -> Factor {
    let mut from = Reader(&case.input);
    let m = from.count();
    let (storage, mat) = (from.floats(m * m), from.floats(m * m));
    from.end();
    let mut to = Reader(&case.output);
    let stopped = to.word() == 1;
    assert_eq!(to.word(), 0);
    let end = to.count();
    let after = to.floats(m * m);
    to.end();
    let seen = Factor {
        m,
        mat,
        storage,
        stopped,
        end,
        after,
    };
    seen.check();
    seen
}

#[test]
fn factor_borders_are_common() {
    let relations: &[Relation<Factor>] = &[
        ("definite", 4, |s| !s.stopped),
        ("definite without NaN", 4, |s| {
            !s.stopped && !s.any_pivot(f64::is_nan)
        }),
        ("stopped", 4, |s| s.stopped),
        ("at the first of several", 10, |s| {
            s.stopped && s.end == 1 && s.m > 1
        }),
        ("in the middle", 15, |s| {
            s.stopped && s.end > 1 && s.end < s.m
        }),
        ("at the last of several", 15, |s| {
            s.stopped && s.end == s.m && s.m > 1
        }),
        ("at plus zero", 20, |s| s.last().is_some_and(is_plus_zero)),
        ("at minus zero", 100, |s| {
            s.last().is_some_and(is_minus_zero)
        }),
        ("at minus zero, not the first", 200, |s| {
            s.last().is_some_and(is_minus_zero) && s.end > 1
        }),
        ("at plus zero, not the first", 20, |s| {
            s.last().is_some_and(is_plus_zero) && s.end > 1
        }),
        ("below zero", 10, |s| s.last().is_some_and(|p| p < 0.0)),
        ("at minus infinity", 500, |s| {
            s.last() == Some(f64::NEG_INFINITY)
        }),
        ("a NaN pivot passes", 100, |s| s.any_pivot(f64::is_nan)),
        ("a NaN pivot passes, the first does not", 100, |s| {
            s.any_pivot(f64::is_nan) && !s.pivot(0).is_nan()
        }),
        ("an infinite pivot passes", 200, |s| {
            s.any_pivot(f64::is_infinite)
        }),
        ("a subnormal pivot passes", 200, |s| {
            s.any_pivot(f64::is_subnormal)
        }),
        ("a pivot shrinks by rounding or nearly", 50, |s| s.shrinks()),
        ("not symmetric", 4, |s| {
            (0..s.m).any(|i| (0..i).any(|j| s.mat[i * s.m + j] != s.mat[j * s.m + i]))
        }),
        ("m = 1", 10, |s| s.m == 1),
        ("m = 32", 1000, |s| s.m == 32),
        ("m = 32, definite", 5000, |s| s.m == 32 && !s.stopped),
    ];
    must_be_common(50, 100_000, read_factor, relations);
}

/// A case of 51.
struct Witness {
    m: usize,
    start: usize,
    end: usize,
    value: f64,
    wit: Vec<f64>,
}

fn read_witness(case: &Case) -> Witness {
    let mut from = Reader(&case.input);
    let [m, start, end] = [(); 3].map(|_| from.count());
    let (storage, before) = (from.floats(m * m), from.floats(m));
    from.end();
    let mut to = Reader(&case.output);
    let (value, wit) = (to.float(), to.floats(m));
    to.end();
    assert!(start < end && end <= m);
    assert!(same(&wit[..start], &before[..start]) && same(&wit[end..], &before[end..]));
    assert_eq!(wit[end - 1], 1.0);
    assert_eq!(word(value), word(-storage[(end - 1) * (m + 1)]));
    Witness {
        m,
        start,
        end,
        value,
        wit,
    }
}

#[test]
fn witness_borders_are_common() {
    let relations: &[Relation<Witness>] = &[
        ("from 0", 2, |s| s.start == 0),
        ("not from 0", 10, |s| s.start > 0),
        ("one entry", 4, |s| s.start + 1 == s.end),
        ("several entries", 4, |s| s.start + 1 < s.end),
        ("all of several", 10, |s| {
            s.start == 0 && s.end == s.m && s.m > 1
        }),
        ("not to the end", 4, |s| s.end < s.m),
        ("minus zero", 20, |s| is_minus_zero(s.value)),
        ("plus zero", 100, |s| is_plus_zero(s.value)),
        ("a positive value", 4, |s| s.value > 0.0),
        ("value NaN", 400, |s| s.value.is_nan()),
        ("a NaN in the vector", 100, |s| {
            s.wit.iter().any(|v| v.is_nan())
        }),
        ("m = 32", 1000, |s| s.m == 32),
    ];
    must_be_common(51, 100_000, read_witness, relations);
}

/// A case of 52.
struct Quad {
    m: usize,
    start: usize,
    end: usize,
    symmetric: bool,
    value: f64,
}

fn read_quad(case: &Case) -> Quad {
    let mut from = Reader(&case.input);
    let [m, start, end] = [(); 3].map(|_| from.count());
    from.words(m);
    let mat = from.floats(m * m);
    from.end();
    let mut to = Reader(&case.output);
    let value = to.float();
    to.end();
    assert!(start <= end && end <= m);
    Quad {
        m,
        start,
        end,
        symmetric: (0..m).all(|i| (0..i).all(|j| mat[i * m + j] == mat[j * m + i])),
        value,
    }
}

#[test]
fn quad_borders_are_common() {
    let relations: &[Relation<Quad>] = &[
        ("empty, plus zero", 20, |s| {
            s.start == s.end && is_plus_zero(s.value)
        }),
        ("empty, not at 0", 50, |s| s.start == s.end && s.start > 0),
        ("not from 0", 10, |s| s.start > 0),
        ("all", 4, |s| s.start == 0 && s.end == s.m),
        ("not symmetric", 4, |s| !s.symmetric),
        ("positive", 4, |s| s.value > 0.0),
        ("below zero", 4, |s| s.value < 0.0),
        ("NaN", 50, |s| s.value.is_nan()),
        ("infinite", 50, |s| s.value.is_infinite()),
        ("m = 32", 1000, |s| s.m == 32),
    ];
    must_be_common(52, 100_000, read_quad, relations);
}

/// A case of 53.
struct Lmi {
    n: usize,
    factor: Factor,
    value: f64,
    grad: Vec<f64>,
}

fn read_lmi(case: &Case) -> Lmi {
    let mut from = Reader(&case.input);
    let [m, n] = [(); 2].map(|_| from.count());
    let mut mat = from.floats(m * m);
    let mat_f = from.floats(n * m * m);
    let x = from.floats(n);
    let (storage, before) = (from.floats(m * m), from.floats(m));
    from.end();
    for (f, x) in mat_f.chunks(m * m).zip(x) {
        mat.iter_mut().zip(f).for_each(|(a, f)| *a -= f * x);
    }
    let mut to = Reader(&case.output);
    let stopped = to.word() == 1;
    let (mut value, mut grad) = (0.0, Vec::new());
    if stopped {
        (value, grad) = (to.float(), to.floats(n));
    }
    assert_eq!(to.word(), 0);
    let end = to.count();
    let (after, wit) = (to.floats(m * m), to.floats(m));
    to.end();
    assert!(same(&wit[end..], &before[end..]));
    let factor = Factor {
        m,
        mat,
        storage,
        stopped,
        end,
        after,
    };
    factor.check();
    Lmi {
        n,
        factor,
        value,
        grad,
    }
}

#[test]
fn lmi_borders_are_common() {
    let relations: &[Relation<Lmi>] = &[
        ("feasible without NaN", 4, |s| {
            !s.factor.stopped && !s.factor.any_pivot(f64::is_nan)
        }),
        ("cut", 4, |s| s.factor.stopped),
        ("at the first of several", 10, |s| {
            s.factor.stopped && s.factor.end == 1 && s.factor.m > 1
        }),
        ("in the middle", 20, |s| {
            s.factor.stopped && s.factor.end > 1 && s.factor.end < s.factor.m
        }),
        ("at the last of several", 20, |s| {
            s.factor.stopped && s.factor.end == s.factor.m && s.factor.m > 1
        }),
        ("at plus zero", 20, |s| {
            s.factor.last().is_some_and(is_plus_zero)
        }),
        ("at minus zero", 100, |s| {
            s.factor.last().is_some_and(is_minus_zero)
        }),
        ("value minus zero", 30, |s| {
            s.factor.stopped && is_minus_zero(s.value)
        }),
        ("a NaN pivot passes", 100, |s| {
            s.factor.any_pivot(f64::is_nan)
        }),
        ("a NaN in the gradient", 1000, |s| {
            s.grad.iter().any(|g| g.is_nan())
        }),
        ("m = 1", 10, |s| s.factor.m == 1),
        ("m = 32", 2000, |s| s.factor.m == 32),
        ("n = 32", 2000, |s| s.n == 32),
        ("m > n", 10, |s| s.factor.m > s.n),
        ("both 32", 5000, |s| s.n == 32 && s.factor.m == 32),
    ];
    must_be_common(53, 50_000, read_lmi, relations);
}
