//! Whole runs of the drivers on lowpass filters, as a job asks for them.

use super::vectors::refused;
use crate::port::{self, Left, Task};
use crate::race::{parting, Pair};
use ellalgo_rs::arr::Arr;
use ellalgo_rs::cutting_plane::{cutting_plane_feas, cutting_plane_optim, Options};
use ellalgo_rs::ell::Ell;
use ellalgo_rs::oracles::lowpass_oracle::LowpassOracle;
use ellalgo_rs::round_robin::RoundRobin;
use generator::drivers::example::Lowpass;
use generator::oracles::spaces::diagonal;
use std::hint::black_box;

fn oracle(filter: &Lowpass) -> LowpassOracle {
    let [lp_sq, up_sq, sp_sq] = filter.limits;
    LowpassOracle::new(filter.n, filter.wpass, filter.wstop, lp_sq, up_sq, sp_sq)
}

fn ball(filter: &Lowpass) -> Ell {
    let n = filter.n;
    Ell::new_with_matrix(filter.kappa, Arr::eye(n), Arr::new(n))
}

/// A run of the Rust, and its answer.
struct Rust {
    oracle: LowpassOracle,
    ell: Ell,
    gamma: f64,
    answer: (Option<Arr>, usize),
}

pub struct Runs {
    optim: bool,
    filter: Lowpass,
    task: Task,
    options: Options,
    start: Left,
    /// Each with a table of its own, as each of the Rust's has.
    port: Vec<(Task, Left)>,
    rust: Vec<Rust>,
    refusals: u64,
}

impl Runs {
    pub fn feas(n: usize) -> Self {
        Runs::new(n, 2000, false)
    }

    pub fn optim(n: usize) -> Self {
        Runs::new(n, 300, true)
    }

    fn new(n: usize, max_iters: u16, optim: bool) -> Self {
        let filter = Lowpass::wide(n).tight();
        let task = task(&filter, max_iters);
        Runs {
            optim,
            filter,
            options: Options::new(max_iters as usize, task.tolerance),
            start: Left {
                gamma: task.sp_sq,
                mq: diagonal(n, |_| 1.0),
                xc: vec![0.0; n],
                grad: vec![0.0; n],
                grad_t: vec![0.0; n],
                best: vec![0.0; n],
                ..Left::default()
            },
            task,
            port: Vec::new(),
            rust: Vec::new(),
            refusals: 0,
        }
    }

    fn fresh(&self) -> Rust {
        Rust {
            oracle: oracle(&self.filter),
            ell: ball(&self.filter),
            gamma: self.task.sp_sq,
            answer: (None, 0),
        }
    }
}

fn task(filter: &Lowpass, max_iters: u16) -> Task {
    let made = oracle(filter);
    let rows = made.spectrum.iter();
    Task {
        n: filter.n,
        rows: made.spectrum.len(),
        nwpass: made.nwpass,
        nwstop: made.nwstop,
        mdim: made.spectrum.len() as i32,
        cur: made.cursors().map(RoundRobin::current),
        lp_sq: made.lp_sq,
        up_sq: made.up_sq,
        sp_sq: made.sp_sq,
        kappa: filter.kappa,
        max_iters,
        tolerance: filter.tolerance,
        table: rows.flat_map(|row| row.data().to_vec()).collect(),
    }
}

/// Everything that both tell: found, steps and marks as floats, which hold them exactly.
fn port_numbers(left: &Left) -> Vec<f64> {
    let mut all: Vec<f64> = left.answer.iter().map(|&w| w as f64).collect();
    all.extend(left.marks.iter().map(|&i| i as f64));
    all.extend(left.values);
    all.push(left.gamma);
    for part in [&left.mq, &left.xc, &left.grad_t, &left.best] {
        all.extend(part);
    }
    all
}

/// Where there is no point the port's x_best keeps its zeros.
fn rust_numbers(rust: &Rust) -> Vec<f64> {
    let (oracle, ell) = (&rust.oracle, &rust.ell);
    let (best, steps) = &rust.answer;
    let found = best.is_some() as u64;
    let mut all = vec![found as f64, *steps as f64, oracle.more_alt as u64 as f64];
    let marks = oracle.cursors().map(RoundRobin::current).into_iter();
    let marks = marks.chain([oracle.idx1, oracle.idx2, oracle.idx3, oracle.kmax]);
    all.extend(marks.map(f64::from));
    all.extend([oracle.sp_sq, oracle.fmax, ell.kappa, ell.tsq, rust.gamma]);
    let none = Arr::new(ell.xc.len());
    for part in [
        &ell.mq,
        &ell.xc,
        ell.grad_t(),
        best.as_ref().unwrap_or(&none),
    ] {
        all.extend(part.data());
    }
    all
}

impl Pair for Runs {
    fn prepare(&mut self, copies: usize) {
        self.port = vec![(self.task.clone(), self.start.clone()); copies];
        self.rust = (0..copies).map(|_| self.fresh()).collect();
    }

    fn port(&mut self) {
        for (task, left) in &mut self.port {
            let task = black_box(&*task);
            self.refusals |= if self.optim {
                port::cutting_plane_optim(task, left)
            } else {
                port::cutting_plane_feas(task, left)
            };
        }
    }

    fn rust(&mut self) {
        for run in &mut self.rust {
            let options = black_box(&self.options);
            run.answer = if self.optim {
                cutting_plane_optim(&mut run.oracle, &mut run.ell, &mut run.gamma, options)
            } else {
                cutting_plane_feas(&mut run.oracle, &mut run.ell, options)
            };
        }
    }

    /// The steps of a run: one that ends at step k has made k + 1, unless the limit ran out.
    fn units(&self) -> f64 {
        let steps = self.rust[0].answer.1;
        (steps + 1).min(self.task.max_iters as usize) as f64
    }

    fn difference(&self) -> Option<String> {
        let mut both = self.port.iter().zip(&self.rust);
        let parted = |((_, p), r): (&(Task, Left), &Rust)| {
            parting("run", &port_numbers(p), &rust_numbers(r))
        };
        refused(self.refusals).or_else(|| both.find_map(parted))
    }
}
