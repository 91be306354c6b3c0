//! A run of a driver before it begins: oracle, ellipsoid, step limit and tolerance.

use super::lively;
use super::walk::{lines, Line};
use crate::draw::vector;
use crate::oracles::filter::Filter;
use crate::oracles::spaces::{shape, Space};
use crate::words::Source;

/// The filter's point is the ellipsoid's centre, its gamma the number that the second driver improves.
#[derive(Clone)]
pub struct Run {
    pub filter: Filter,
    pub space: Space,
    /// What the caller's gradient holds before the run.
    pub grad: Vec<f64>,
    pub limit: u16,
    pub tolerance: f64,
}

impl Run {
    pub fn new(filter: Filter, mut space: Space) -> Self {
        space.xc = filter.x.clone();
        Run {
            grad: vec![0.0; filter.n],
            filter,
            space,
            limit: 0,
            tolerance: 0.0,
        }
    }

    pub fn draw(src: &mut Source, optim: bool) -> Self {
        let mut run = match src.rng.below(24) {
            0 => lively::any_lowpass(src),
            1..=9 => Run::anything(src),
            _ => lively::draw(src),
        };
        if run.limit == 0 {
            run.bound(src, optim);
        }
        run.grad = vector(src, run.filter.n);
        run.space.scratch = vec![vector(src, run.filter.n)];
        run
    }

    /// Any oracle and any ellipsoid; most runs of this kind are short.
    fn anything(src: &mut Source) -> Self {
        let filter = Filter::of_any_size(src);
        let mut space = shape(src, false, filter.n);
        if src.rng.once_in(4) {
            space.kappa = src.any();
        }
        if src.rng.coin() {
            space.tsq = src.any();
        }
        Run::new(filter, space)
    }

    /// Gradient and scratch are zero.
    pub fn started(mut self) -> Self {
        self.grad.fill(0.0);
        self.space.scratch[0].fill(0.0);
        self
    }

    /// Sets the limit and the tolerance, often where the run stands on a border of one.
    pub fn bound(&mut self, src: &mut Source, optim: bool) {
        let f = &self.filter;
        let long = f.table.len() <= 100 && (src.rng.once_in(6) || f.lp_sq == f.up_sq);
        self.limit = match src.rng.below(40) {
            0 => src.rng.below(3) as u16,
            _ if long => src.rng.range(60, 2000) as u16,
            _ => src.rng.range(0, 60) as u16,
        };
        self.tolerance = f64::NEG_INFINITY;
        let lines = lines(self, optim);
        self.tolerance = tolerance(src, &lines);
        if lines.len() < self.limit as usize && src.rng.once_in(4) {
            self.limit = src.rng.pick(&[255, 256, 32_767, 32_768, 65_535]); // ends by itself
        } else if src.rng.once_in(6) {
            self.limit = (lines.len() as i64 + src.rng.range(-1, 1)).max(0) as u16;
        }
    }
}

fn tolerance(src: &mut Source, lines: &[Line]) -> f64 {
    match src.rng.below(12) {
        0..=2 => 0.0,
        3..=5 => 1e-20,
        6 => src
            .rng
            .pick(&[-0.0, -1.0, 5e-324, f64::MIN_POSITIVE, 1e300]),
        7 => src.rng.pick(&[f64::NAN, f64::INFINITY, f64::NEG_INFINITY]),
        8 => src.any(),
        _ if lines.is_empty() => src.positive(),
        _ => {
            // < and <= differ at a tsq that occurs.
            let at = src.rng.below(lines.len() as u64) as usize;
            src.neighbour(lines[at].tsq)
        }
    }
}
