//! Ellipsoids and cuts, drawn so that every status is met by every kind of update.

use super::matrices::dominant;
use crate::draw::{choice, halves, many, part, vector};
use crate::words::{scale, Source};
use ellalgo_rs::arr::Arr;
use ellalgo_rs::cutting_plane::{CutStatus, ParallelCut, SearchSpace, UpdateByCutChoice};
use ellalgo_rs::ell::Ell;
use ellalgo_rs::ell_stable::EllStable;

pub const BIAS: u64 = 0;
pub const CENTRAL: u64 = 1;
pub const Q: u64 = 2;

/// The numbers of an `Ell`, or of an `EllStable` if it is stable. The first has one scratch
/// vector, the second has four.
#[derive(Clone)]
pub struct Space {
    pub stable: bool,
    pub kappa: f64,
    pub tsq: f64,
    pub xc: Vec<f64>,
    pub mq: Vec<f64>,
    pub scratch: Vec<Vec<f64>>,
}

/// An update: its kind, the gradient and the betas.
pub struct Cut {
    pub how: u64,
    pub grad: Vec<f64>,
    pub b0: f64,
    pub b1: Option<f64>,
}

impl Space {
    /// The scratch is zero.
    pub fn new(stable: bool, kappa: f64, xc: Vec<f64>, mq: Vec<f64>) -> Self {
        let scratch = vec![vec![0.0; xc.len()]; if stable { 4 } else { 1 }];
        Space {
            stable,
            kappa,
            tsq: 0.0,
            xc,
            mq,
            scratch,
        }
    }

    fn n(&self) -> usize {
        self.xc.len()
    }

    /// The Rust's update.
    pub fn updated(&self, cut: &Cut) -> (CutStatus, Space) {
        let by = (Arr::from(cut.grad.clone()), ParallelCut(cut.b0, cut.b1));
        if self.stable {
            let mq = Arr::from_shape_vec(self.n(), self.n(), self.mq.clone());
            let scratch = self.scratch.iter().map(|v| Arr::from(v.clone()));
            let scratch: Vec<Arr> = scratch.collect();
            let mut ell = EllStable::new_with_matrix(self.kappa, mq, Arr::from(self.xc.clone()));
            ell.set_tsq(self.tsq);
            ell.set_scratch(scratch.try_into().unwrap());
            let status = apply(&mut ell, cut.how, &by);
            return (status, Space::of_stable(&ell));
        }
        let mut ell = self.ell();
        let status = apply(&mut ell, cut.how, &by);
        (status, Space::of_ell(&ell))
    }

    /// The Rust's `Ell` of these numbers.
    pub fn ell(&self) -> Ell {
        let mq = Arr::from_shape_vec(self.n(), self.n(), self.mq.clone());
        let mut ell = Ell::new_with_matrix(self.kappa, mq, Arr::from(self.xc.clone()));
        ell.tsq = self.tsq;
        ell.set_grad_t(Arr::from(self.scratch[0].clone()));
        ell
    }

    pub fn of_stable(ell: &EllStable) -> Space {
        Space {
            stable: true,
            kappa: ell.kappa(),
            tsq: ell.tsq(),
            xc: ell.xc().data().to_vec(),
            mq: ell.mq().data().to_vec(),
            scratch: ell.scratch().map(|v| v.data().to_vec()).into(),
        }
    }

    pub fn of_ell(ell: &Ell) -> Space {
        Space {
            stable: false,
            kappa: ell.kappa,
            tsq: ell.tsq,
            xc: ell.xc.data().to_vec(),
            mq: ell.mq.data().to_vec(),
            scratch: vec![ell.grad_t().data().to_vec()],
        }
    }

    /// Omega, which shows as tsq where kappa is 1; zero where it has no effect.
    fn omega(&self, grad: &[f64]) -> f64 {
        let mut probe = self.clone();
        (probe.kappa, probe.tsq) = (1.0, 0.0);
        let cut = Cut {
            how: CENTRAL,
            grad: grad.to_vec(),
            b0: 0.0,
            b1: None,
        };
        probe.updated(&cut).1.tsq
    }
}

fn apply<S>(space: &mut S, how: u64, cut: &(Arr, ParallelCut)) -> CutStatus
where
    S: SearchSpace<ArrayType = Arr>,
    ParallelCut: UpdateByCutChoice<S, ArrayType = Arr>,
{
    match how {
        BIAS => space.update_bias_cut(cut),
        CENTRAL => space.update_central_cut(cut),
        _ => space.update_q(cut),
    }
}

pub fn draw(src: &mut Source, stable: bool) -> (Space, Cut) {
    let n = size(src);
    let (mut space, cut) = match src.rng.below(16) {
        0 | 1 => least_omega(src, stable, n),
        2 => whole_sigma(src, stable, n),
        _ => {
            let mut space = shape(src, stable, n);
            let grad = gradient(src, n);
            let cut = aimed(src, &mut space, grad);
            (space, cut)
        }
    };
    if src.rng.coin() {
        space.tsq = src.any(); // kept where omega has no effect
    }
    (space, cut)
}

/// 2 to 32, small ones more often so that a list stays short.
fn size(src: &mut Source) -> usize {
    let most = match src.rng.below(20) {
        0 => 32,
        1 | 2 => 12,
        _ => 5,
    };
    src.rng.range(2, most) as usize
}

pub fn shape(src: &mut Source, stable: bool, n: usize) -> Space {
    let xc = if src.rng.once_in(8) {
        vector(src, n)
    } else {
        many(src, n, Source::ordinary)
    };
    let mut space = Space::new(stable, src.positive(), xc, diagonal(n, |_| 1.0));
    match src.rng.below(16) {
        0 | 1 => {}
        2 => space.mq = diagonal(n, |_| src.positive()),
        3..=7 => walk(src, &mut space),
        8..=11 => space.mq = full(src, stable, n),
        12 => space.mq = many(src, n * n, Source::ordinary),
        13 => space.mq = vector(src, n * n),
        14 => space.mq = many(src, n * n, halves),
        _ => {
            space.mq = full(src, stable, n);
            let at = src.rng.below((n * n) as u64) as usize;
            space.mq[at] = src.any();
        }
    }
    space
}

pub fn diagonal(n: usize, mut entry: impl FnMut(usize) -> f64) -> Vec<f64> {
    let mut mq = vec![0.0; n * n];
    for i in 0..n {
        mq[i * n + i] = entry(i);
    }
    mq
}

/// As several updates leave it. Their cuts take off a part, so that something is left.
fn walk(src: &mut Source, space: &mut Space) {
    for _ in 0..1 + src.rng.below(6) {
        let grad = many(src, space.n(), Source::ordinary);
        let tau = (space.kappa * space.omega(&grad)).sqrt();
        let b0 = 0.5 * part(src).abs() * tau;
        let b1 = src.rng.coin().then(|| b0 + (0.1 + part(src).abs()) * tau);
        let how = src.rng.below(3);
        *space = space.updated(&Cut { how, grad, b0, b1 }).1;
    }
    space.scratch.iter_mut().for_each(|v| v.fill(0.0));
}

/// A definite matrix. The stable one has its factors: D on the diagonal, L above it, and below
/// it what the last update left.
fn full(src: &mut Source, stable: bool, n: usize) -> Vec<f64> {
    if !stable {
        return dominant(src, n);
    }
    let mut mq = many(src, n * n, Source::ordinary);
    for i in 0..n {
        mq[i * n + i] = src.positive();
    }
    mq
}

fn gradient(src: &mut Source, n: usize) -> Vec<f64> {
    let mut grad = many(src, n, Source::ordinary);
    match src.rng.below(16) {
        0 => grad = unit(src, n, 1),
        1 | 2 => grad = many(src, n, halves),
        3 => grad = vector(src, n),
        4 => grad = many(src, n, Source::zero),
        5 => {
            // Omega or tsq leaves the range.
            let e = src.rng.pick(&[-540, -514, -511, -509, 505, 512]);
            grad.iter_mut().for_each(|g| *g = scale(*g, e));
        }
        6 => grad[0] = src.any(),
        _ => {}
    }
    grad
}

/// Ones of either sign in some places, zeros of either sign in the others.
fn unit(src: &mut Source, n: usize, count: usize) -> Vec<f64> {
    let from = src.rng.below((n - count + 1) as u64) as usize;
    let ones = from..from + count;
    (0..n)
        .map(|i| src.either_sign(ones.contains(&i) as u64 as f64))
        .collect()
}

/// Betas for the gradient, often those of a calculator's own case, with the kappa that leads to it.
fn aimed(src: &mut Source, space: &mut Space, grad: Vec<f64>) -> Cut {
    let how = src.rng.below(3);
    let omega = space.omega(&grad);
    let (b0, b1) = match src.rng.below(10) {
        0..=2 if omega > 0.0 => {
            let (b0, b1, tsq) = choice(src, space.n());
            space.kappa = tsq / omega;
            (b0, b1)
        }
        3 => {
            space.kappa = match src.rng.below(5) {
                0 => src.subnormal(),
                1 => -src.positive(),
                2 => src.special(),
                3 => scale(src.positive(), 1000),
                _ => src.any(),
            };
            near(src, space.kappa * omega)
        }
        4 => (src.any(), src.rng.coin().then(|| src.any())),
        _ => near(src, space.kappa * omega),
    };
    Cut { how, grad, b0, b1 }
}

/// Betas as an oracle gives them for an ellipsoid of this tsq.
fn near(src: &mut Source, tsq: f64) -> (f64, Option<f64>) {
    let tau = if tsq.is_nan() {
        src.positive()
    } else {
        tsq.abs().sqrt()
    };
    let b0 = match src.rng.below(8) {
        0 => 0.0,
        1 => src.neighbour(tau),
        2 => part(src) * tau,
        3 => tau * (0.9 + src.positive()),
        _ => part(src).abs() * 0.5 * tau,
    };
    let b1 = match src.rng.below(8) {
        0..=2 => None,
        3 => Some(part(src) * tau),
        4 => Some(b0),
        5 => Some(src.neighbour(tau)),
        _ => Some(b0 + part(src).abs() * tau),
    };
    (b0, b1)
}

/// Omega is 2^-1022, where an update stops, or a float or two beside it.
fn least_omega(src: &mut Source, stable: bool, n: usize) -> (Space, Cut) {
    let mut grad = unit(src, n, 1);
    let at = grad.iter().position(|g| *g != 0.0).unwrap();
    grad[at] = scale(grad[at], -511);
    // Below one only every second float gives an omega of its own.
    let entry = match src.rng.below(3) {
        0 => 1.0 - f64::EPSILON,
        1 => 1.0,
        _ => 1.0 + f64::EPSILON * src.rng.range(1, 2) as f64,
    };
    let mq = diagonal(n, |i| if i == at { entry } else { 1.0 });
    let kappa = match src.rng.below(3) {
        0 => src.positive(),
        1 => scale(src.positive(), 1000),
        _ => src.any(),
    };
    let space = Space::new(stable, kappa, many(src, n, Source::ordinary), mq);
    let (b0, b1) = near(src, kappa * f64::MIN_POSITIVE);
    let how = src.rng.below(3);
    (space, Cut { how, grad, b0, b1 })
}

/// Sigma is exactly 1, so that the rank-one update of the stable ellipsoid divides by zero. All
/// numbers are powers of two: tau² is kappa times omega, and beta0 is tau or equal to beta1.
fn whole_sigma(src: &mut Source, stable: bool, n: usize) -> (Space, Cut) {
    let count = 1 << src.rng.below(n.ilog2() as u64 + 1);
    let grad = unit(src, n, count);
    let tau = scale(1.0, src.rng.range(-20, 20) as i32);
    let kappa = tau * tau / count as f64;
    let mq = diagonal(n, |_| 1.0);
    let space = Space::new(stable, kappa, many(src, n, Source::ordinary), mq);
    let (b0, b1) = match src.rng.below(4) {
        0 => (tau, None),
        1 => (tau, Some(tau + src.positive())),
        2 => (tau / 2.0, Some(tau / 2.0)),
        _ => (-tau / 8.0, Some(-tau / 8.0)),
    };
    let how = src.rng.pick(&[BIAS, Q]);
    (space, Cut { how, grad, b0, b1 })
}
