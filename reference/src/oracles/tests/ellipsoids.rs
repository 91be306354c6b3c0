//! Operations 60 and 61.

use super::{is_minus_zero, must_be_common, Reader, Relation};
use crate::lists::Case;
use crate::oracles::spaces::{BIAS, CENTRAL, Q};
use crate::words::word;
use ellalgo_rs::cutting_plane::ParallelCut;
use ellalgo_rs::ell_calc::EllCalc;

/// A case of either operation.
struct Seen {
    how: u64,
    n: usize,
    kappa: f64,
    tsq: f64,
    xc: Vec<f64>,
    mq: Vec<f64>,
    b0: f64,
    b1: Option<f64>,
    status: u64,
    omega: f64,
    after: (f64, f64, Vec<f64>),
}

impl Seen {
    fn success(&self) -> bool {
        self.status == 0
    }

    /// Omega stopped the update.
    fn idle(&self) -> bool {
        self.omega <= f64::MIN_POSITIVE
    }

    fn sigma(&self) -> f64 {
        let (calc, beta) = (EllCalc::new(self.n), ParallelCut(self.b0, self.b1));
        let tsq = self.after.1;
        let (_, (_, sigma, _)) = match self.how {
            BIAS => calc.calc_single_or_parallel_bias_cut(&beta, tsq),
            CENTRAL => calc.calc_single_or_parallel_central_cut(&beta, tsq),
            _ => calc.calc_single_or_parallel_q(&beta, tsq),
        };
        sigma
    }

    /// What a failed update keeps.
    fn check(&self) {
        let (kappa, tsq, xc) = &self.after;
        if self.idle() {
            assert_eq!((self.status, word(*tsq)), (2, word(self.tsq)));
        } else {
            assert_eq!(word(*tsq), word(self.kappa * self.omega));
        }
        if !self.success() {
            assert_eq!(word(*kappa), word(self.kappa));
            assert!(xc.iter().zip(&self.xc).all(|(a, b)| word(*a) == word(*b)));
        }
    }
}

fn read(case: &Case) -> Seen {
    let stable = case.op == 61;
    let mut from = Reader(&case.input);
    let (how, n) = (from.word(), from.count());
    if !stable {
        assert_eq!(from.word(), 0);
    }
    let (kappa, tsq, xc) = (from.float(), from.float(), from.floats(n));
    let (mq, grad) = (from.floats(n * n), from.floats(n));
    let (b0, b1) = (from.float(), from.optional().map(f64::from_bits));
    from.end();
    let mut to = Reader(&case.output);
    let status = to.word();
    let after = (to.float(), to.float(), to.floats(n));
    to.words(n * n);
    let omega = if stable {
        to.words(2 * n);
        let gg_t = to.floats(n);
        to.words(n);
        gg_t.iter().fold(0.0, |sum, g| sum + g)
    } else {
        let grad_t = to.floats(n);
        let first = grad[0] * grad_t[0];
        (1..n).fold(first, |sum, i| sum + grad[i] * grad_t[i])
    };
    to.end();
    let seen = Seen {
        how,
        n,
        kappa,
        tsq,
        xc,
        mq,
        b0,
        b1,
        status,
        omega,
        after,
    };
    seen.check();
    seen
}

const LEAST: f64 = f64::MIN_POSITIVE;

const RELATIONS: &[Relation<Seen>] = &[
    ("bias, Success, single", 15, |s| {
        s.how == BIAS && s.success() && s.b1.is_none()
    }),
    ("bias, Success, parallel", 15, |s| {
        s.how == BIAS && s.success() && s.b1.is_some()
    }),
    ("central, Success, single", 15, |s| {
        s.how == CENTRAL && s.success() && s.b1.is_none()
    }),
    ("central, Success, parallel", 15, |s| {
        s.how == CENTRAL && s.success() && s.b1.is_some()
    }),
    ("q, Success, single", 15, |s| {
        s.how == Q && s.success() && s.b1.is_none()
    }),
    ("q, Success, parallel", 15, |s| {
        s.how == Q && s.success() && s.b1.is_some()
    }),
    ("all finite, Success", 3, |s| {
        s.success() && s.after.2.iter().all(|x| x.is_finite()) && s.after.0 > 0.0
    }),
    ("bias, NoSoln, single", 100, |s| {
        s.how == BIAS && s.status == 1 && s.b1.is_none()
    }),
    ("bias, NoSoln, parallel", 100, |s| {
        s.how == BIAS && s.status == 1 && s.b1.is_some()
    }),
    ("central, NoSoln", 100, |s| {
        s.how == CENTRAL && s.status == 1
    }),
    ("q, NoSoln, single", 200, |s| {
        s.how == Q && s.status == 1 && s.b1.is_none()
    }),
    ("q, NoSoln, parallel", 100, |s| {
        s.how == Q && s.status == 1 && s.b1.is_some()
    }),
    ("q, NoEffect by eta, single", 200, |s| {
        s.status == 2 && !s.idle() && s.b1.is_none()
    }),
    ("q, NoEffect by eta, parallel", 200, |s| {
        s.status == 2 && !s.idle() && s.b1.is_some()
    }),
    ("NoEffect by omega", 6, |s| s.idle()),
    ("NoEffect by omega, tsq NaN", 400, |s| {
        s.idle() && s.tsq.is_nan()
    }),
    ("omega = 2^-1022", 50, |s| s.omega == LEAST),
    ("omega one float below", 50, |s| {
        s.omega == LEAST.next_down()
    }),
    ("omega one float above", 100, |s| s.omega == LEAST.next_up()),
    ("omega one float above, Success", 150, |s| {
        s.omega == LEAST.next_up() && s.success()
    }),
    ("omega subnormal", 30, |s| s.omega.is_subnormal()),
    ("omega zero", 50, |s| s.omega == 0.0),
    ("omega below zero", 30, |s| s.omega < 0.0),
    ("omega NaN, Success", 100, |s| {
        s.omega.is_nan() && s.success()
    }),
    ("omega infinite", 200, |s| s.omega == f64::INFINITY),
    ("sigma = 1", 20, |s| s.success() && s.sigma() == 1.0),
    ("sigma = 1, parallel", 50, |s| {
        s.success() && s.sigma() == 1.0 && s.b1.is_some()
    }),
    ("delta 0", 50, |s| {
        s.success() && s.kappa > 0.0 && s.after.0 == 0.0
    }),
    ("kappa subnormal", 100, |s| s.kappa.is_subnormal()),
    ("kappa below zero", 30, |s| s.kappa < 0.0),
    ("kappa below zero, Success", 200, |s| {
        s.kappa < 0.0 && s.success()
    }),
    ("kappa NaN", 150, |s| s.kappa.is_nan()),
    ("kappa infinite", 150, |s| s.kappa.is_infinite()),
    ("kappa minus zero", 500, |s| is_minus_zero(s.kappa)),
    ("beta0 NaN", 400, |s| s.b0.is_nan()),
    ("beta1 below beta0", 15, |s| {
        s.b1.is_some_and(|b1| b1 < s.b0)
    }),
    ("beta1 = beta0", 30, |s| s.b1 == Some(s.b0)),
    ("tsq overflows", 1000, |s| {
        s.kappa.is_finite() && s.omega.is_finite() && (s.kappa * s.omega).is_infinite()
    }),
    ("tsq underflows", 400, |s| {
        !s.idle() && s.kappa != 0.0 && s.kappa * s.omega == 0.0
    }),
    ("mq not symmetric, Success", 20, |s| {
        let n = s.n;
        s.success() && (0..n).any(|i| (0..i).any(|j| s.mq[i * n + j] != s.mq[j * n + i]))
    }),
    ("n = 2", 6, |s| s.n == 2),
    ("n = 32", 1000, |s| s.n == 32),
    ("n = 32, Success", 2000, |s| s.n == 32 && s.success()),
];

#[test]
fn update_borders_are_common() {
    must_be_common(60, 100_000, read, RELATIONS);
}

#[test]
fn stable_update_borders_are_common() {
    must_be_common(61, 100_000, read, RELATIONS);
}
