//! The drivers with slices of any lengths and a state that may be illegal: operations 140 and 141.

use super::run::Run;
use super::walk::{feas, optim, End};
use crate::draw::vector;
use crate::lengths::{resize, wrong};
use crate::lists::Case;
use crate::oracles::filter::State;
use crate::oracles::lowpass::{give_bands, give_state};
use crate::oracles::lowpass_any::Call;
use crate::words::Source;

/// A call as a caller may make it. `call` holds the table, the point and the gradient; the other
/// slices are the ellipsoid's and the output for the point.
pub struct AnyRun {
    pub call: Call,
    pub run: Run,
    pub mq: Vec<f64>,
    pub grad_t: Vec<f64>,
    pub best: Vec<f64>,
}

impl AnyRun {
    pub fn new(run: Run, best: Vec<f64>) -> Self {
        AnyRun {
            call: Call::new(run.filter.clone(), run.grad.clone()),
            mq: run.space.mq.clone(),
            grad_t: run.space.scratch[0].clone(),
            run,
            best,
        }
    }

    pub fn draw(src: &mut Source, optim: bool) -> Self {
        let run = Run::draw(src, optim);
        let best = vector(src, run.filter.n);
        let mut any = AnyRun::new(run, best);
        if src.rng.once_in(4) {
            let more = src.rng.below(4) as usize + 1;
            let len = any.best.len() + more;
            resize(src, &mut any.best, len);
        }
        if src.rng.below(5) < 2 {
            any.spoil(src);
            while src.rng.once_in(3) {
                any.spoil(src);
            }
        }
        any
    }

    fn spoil(&mut self, src: &mut Source) {
        let n = self.run.filter.n;
        match src.rng.below(8) {
            0 => {
                let len = wrong(src, n, self.mq.len());
                resize(src, &mut self.mq, len);
            }
            1 => {
                let len = wrong(src, n, self.grad_t.len());
                resize(src, &mut self.grad_t, len);
            }
            2 | 3 => {
                let len = src.rng.pick(&[0, 1, n - 1, n - 1]);
                resize(src, &mut self.best, len);
            }
            _ => self.spoil_call(src),
        }
    }

    /// Where n becomes another one, the ellipsoid's slices mostly go with it.
    fn spoil_call(&mut self, src: &mut Source) {
        let n = self.call.held.n;
        self.call.spoil(src);
        if self.call.held.n != n && !src.rng.once_in(4) {
            let len = self.call.held.slices[1].len();
            resize(src, &mut self.mq, len * len);
            resize(src, &mut self.grad_t, len);
            resize(src, &mut self.best, len);
        }
    }

    pub fn refusal(&self) -> u64 {
        let n = self.call.held.n;
        let right = self.mq.len() as u128 == n as u128 * n as u128 && self.grad_t.len() as u64 == n;
        match self.call.refusal() {
            1 => 1,
            _ if !right => 2,
            0 if (self.best.len() as u64) < n => 11,
            no => no,
        }
    }

    fn take(&self, gamma: Option<f64>, case: &mut Case) {
        let [table, xc, grad] = &self.call.held.slices[..] else {
            panic!("three slices")
        };
        let parts = [table, xc, &self.mq, grad, &self.grad_t, &self.best];
        case.take(self.call.held.n);
        case.take(self.call.held.rows);
        parts.iter().for_each(|part| case.take(part.len() as u64));
        self.call.take_settings(case);
        case.take_floats(&[self.run.space.kappa, self.run.space.tsq]);
        case.take(self.run.limit as u64);
        case.take_floats(&[self.run.tolerance]);
        case.take_floats(gamma.as_slice());
        parts.iter().for_each(|part| case.take_floats(part));
    }

    /// The slices are the run's own once the call is accepted.
    fn accept(&mut self) {
        self.call.accept();
        let run = &mut self.run;
        run.filter = self.call.filter.clone();
        run.space.xc = run.filter.x.clone();
        run.space.mq = self.mq.clone();
        run.space.scratch = vec![self.grad_t.clone()];
        run.grad = self.call.held.slices[2].clone();
    }

    fn keep(&mut self, end: &End) {
        if let Some(best) = &end.best {
            self.best[..best.len()].copy_from_slice(best);
        }
        self.run.space = end.space.clone();
        self.call.held.slices[1] = end.space.xc.clone();
        self.call.held.slices[2] = end.grad.clone();
        self.mq = end.space.mq.clone();
        self.grad_t = end.space.scratch[0].clone();
    }

    fn give_rest(&self, state: &State, ellipsoid: bool, case: &mut Case) {
        let held = &self.call.held.slices;
        let parts = [&self.best, &held[1], &self.mq, &held[2], &self.grad_t];
        parts.iter().for_each(|part| case.give_floats(part));
        give_state(state, case);
        give_bands(state, case);
        let space = &self.run.space;
        case.give_floats(&if ellipsoid {
            [space.kappa, space.tsq]
        } else {
            [0.0; 2] // no ellipsoid of this n can be made
        });
    }
}

pub fn cutting_plane_feas(src: &mut Source, case: &mut Case) {
    any_of(AnyRun::draw(src, false), false, case);
}

pub fn cutting_plane_optim(src: &mut Source, case: &mut Case) {
    any_of(AnyRun::draw(src, true), true, case);
}

pub fn any_of(mut any: AnyRun, improve: bool, case: &mut Case) {
    let gamma = any.call.filter.gamma;
    any.take(improve.then_some(gamma), case);
    let no = any.refusal();
    if no != 0 {
        case.give(no);
        case.give_floats(improve.then_some(gamma).as_slice());
        return any.give_rest(&any.call.filter.state, no != 1, case);
    }
    any.accept();
    let (end, _) = if improve {
        optim(&any.run)
    } else {
        feas(&any.run)
    };
    case.give(if end.halted { 6 } else { 0 });
    case.give(end.best.is_some() as u64);
    case.give(end.steps as u64);
    case.give_floats(improve.then_some(end.gamma).as_slice());
    any.keep(&end);
    any.give_rest(&end.state, true, case);
}
