//! Runs of the Rust's drivers. Their answers are the drivers' own; what these do not show, the
//! cuts and their statuses, comes from the same public calls made one by one, and both must agree.

use crate::drivers::run::Run;
use crate::lists::{status_word, Case};
use crate::oracles::filter::State;
use crate::oracles::lowpass::{check, expected_cut, give_state, Cut};
use crate::oracles::spaces::Space;
use ellalgo_rs::arr::Arr;
use ellalgo_rs::cutting_plane::{
    cutting_plane_feas, cutting_plane_optim, CutStatus, Options, OracleFeas, OracleOptim,
    SearchSpace,
};
use ellalgo_rs::ell::Ell;
use ellalgo_rs::oracles::lowpass_oracle::{scan_band_of, LowpassOracle};

/// A step that made an update.
pub struct Line {
    /// Nothing was broken where there is none: `assess_optim` gave the best row.
    pub cut: Option<Cut>,
    pub status: u64,
    pub tsq: f64,
}

/// A run's answer and what it left.
pub struct End {
    pub halted: bool,
    pub best: Option<Vec<f64>>,
    pub steps: u16,
    pub gamma: f64,
    pub state: State,
    pub space: Space,
    /// The last cut's gradient.
    pub grad: Vec<f64>,
}

impl End {
    fn words(&self) -> Vec<u64> {
        let mut case = Case::default();
        case.give(self.best.is_some() as u64);
        case.give(self.steps as u64);
        case.give_floats(self.best.as_deref().unwrap_or(&[]));
        case.give_floats(&[self.gamma]);
        give_state(&self.state, &mut case);
        give_space(&self.space, &mut case);
        case.output
    }
}

fn give_space(space: &Space, case: &mut Case) {
    case.give_floats(&[space.kappa, space.tsq]);
    for part in [&space.xc, &space.mq, &space.scratch[0]] {
        case.give_floats(part);
    }
}

/// What a step comes to.
enum Step {
    Feasible,
    Halted,
    Updated(CutStatus),
}

/// A run made step by step.
struct Walk<'a> {
    run: &'a Run,
    oracle: LowpassOracle,
    ell: Ell,
    gamma: f64,
    state: State,
    grad: Vec<f64>,
    best: Option<Vec<f64>>,
    lines: Vec<Line>,
}

impl<'a> Walk<'a> {
    fn new(run: &'a Run) -> Self {
        let f = &run.filter;
        Walk {
            run,
            oracle: f.oracle(f.spectrum(), &f.state),
            ell: run.space.ell(),
            gamma: f.gamma,
            state: f.state,
            grad: run.grad.clone(),
            best: None,
            lines: Vec::new(),
        }
    }

    fn expected(&self, state: &State) -> Option<Cut> {
        expected_cut(&self.run.filter, &self.oracle.spectrum, &self.ell.xc, state)
    }

    fn feas_step(&mut self) -> Step {
        let cut = self.expected(&self.state);
        let found = self.oracle.assess_feas(&self.ell.xc);
        self.state = self.state.after(&self.oracle);
        check(cut.as_ref(), found.as_ref(), &self.state);
        let Some(by) = found else {
            self.best = Some(self.ell.xc.data().to_vec());
            return Step::Feasible;
        };
        let status = self.ell.update_bias_cut(&by);
        self.note(cut, by.0, status)
    }

    fn optim_step(&mut self) -> Step {
        let sp_sq = self.gamma;
        let cut = self.expected(&State {
            sp_sq,
            ..self.state
        });
        if cut.is_none() && self.peak() == -1 {
            return Step::Halted;
        }
        let (by, feasible) = self.oracle.assess_optim(&self.ell.xc, &mut self.gamma);
        self.state = self.state.after(&self.oracle);
        let found = (!feasible).then_some(&by);
        check(cut.as_ref(), found, &self.state);
        let status = if feasible {
            self.best = Some(self.ell.xc.data().to_vec());
            self.ell.update_central_cut(&by)
        } else {
            self.ell.update_bias_cut(&by)
        };
        self.note(cut, by.0, status)
    }

    /// The row of the largest stop value, by a scan that leaves the oracle as it is.
    fn peak(&self) -> i32 {
        let cursor = self.state.cursors[2];
        let (mut rr, band) = (cursor.made(), (cursor.lo, cursor.hi));
        let (rows, x) = (&self.oracle.spectrum, &self.ell.xc);
        scan_band_of(rows, x, &mut rr, band, 0.0, Some(self.gamma)).2
    }

    fn note(&mut self, cut: Option<Cut>, grad: Arr, status: CutStatus) -> Step {
        self.grad = grad.data().to_vec();
        self.lines.push(Line {
            cut,
            status: status_word(&status),
            tsq: self.ell.tsq,
        });
        Step::Updated(status)
    }

    /// Steps to the end, and gives the end and whether it is a halt.
    fn go(&mut self, step: fn(&mut Self) -> Step) -> (u16, bool) {
        for k in 0..self.run.limit {
            match step(self) {
                Step::Feasible => return (k, false),
                Step::Halted => return (k, true),
                Step::Updated(status) => {
                    if status != CutStatus::Success || self.ell.tsq < self.run.tolerance {
                        return (k, false);
                    }
                }
            }
        }
        (self.run.limit, false)
    }

    fn end(&self, steps: u16, halted: bool) -> End {
        End {
            halted,
            best: self.best.clone(),
            steps,
            gamma: self.gamma,
            state: self.state,
            space: Space::of_ell(&self.ell),
            grad: self.grad.clone(),
        }
    }
}

/// The steps alone, without the driver.
pub fn lines(run: &Run, optim: bool) -> Vec<Line> {
    let mut walk = Walk::new(run);
    walk.go(if optim {
        Walk::optim_step
    } else {
        Walk::feas_step
    });
    walk.lines
}

pub fn feas(run: &Run) -> (End, Vec<Line>) {
    let mut walk = Walk::new(run);
    let (steps, halted) = walk.go(Walk::feas_step);
    let driven = driven(run, &walk.grad, |oracle, ell, _| {
        cutting_plane_feas(oracle, ell, &run.options(run.limit))
    });
    assert_eq!(driven.words(), walk.end(steps, halted).words());
    (driven, walk.lines)
}

/// A halted run's finished steps are all that the driver makes with the halted step as its limit.
pub fn optim(run: &Run) -> (End, Vec<Line>) {
    let mut walk = Walk::new(run);
    let (steps, halted) = walk.go(Walk::optim_step);
    let limit = if halted { steps } else { run.limit };
    let mut driven = driven(run, &walk.grad, |oracle, ell, gamma| {
        cutting_plane_optim(oracle, ell, gamma, &run.options(limit))
    });
    driven.halted = halted;
    assert_eq!(driven.words(), walk.end(steps, halted).words());
    (driven, walk.lines)
}

type Answer = (Option<Arr>, usize);

fn driven(
    run: &Run,
    grad: &[f64],
    driver: impl FnOnce(&mut LowpassOracle, &mut Ell, &mut f64) -> Answer,
) -> End {
    let f = &run.filter;
    let (mut oracle, mut ell) = (f.oracle(f.spectrum(), &f.state), run.space.ell());
    let mut gamma = f.gamma;
    let (best, steps) = driver(&mut oracle, &mut ell, &mut gamma);
    End {
        halted: false,
        best: best.map(|x| x.data().to_vec()),
        steps: steps as u16,
        gamma,
        state: f.state.after(&oracle),
        space: Space::of_ell(&ell),
        grad: grad.to_vec(),
    }
}

impl Run {
    fn options(&self, limit: u16) -> Options {
        Options::new(limit as usize, self.tolerance)
    }
}
