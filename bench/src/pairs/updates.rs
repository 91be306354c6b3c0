//! The updates of both ellipsoids: cuts one after the other, from one start.

use super::vectors::refused;
use crate::port;
use crate::race::{parting, Pair};
use ellalgo_rs::arr::Arr;
use ellalgo_rs::cutting_plane::{CutStatus, ParallelCut, SearchSpace, UpdateByCutChoice};
use ellalgo_rs::ell::Ell;
use ellalgo_rs::ell_stable::EllStable;
use ellalgo_rs::oracles::lowpass_oracle::create_lowpass_case;
use generator::lists::status_word;
use generator::oracles::spaces::{diagonal, Cut, Space, BIAS, CENTRAL};
use std::hint::black_box;

const CUTS: usize = 64;

pub struct Updates<S> {
    start: Space,
    made: S,
    /// The Rust's ellipsoid as numbers.
    space_of: fn(&S) -> Space,
    cuts: Vec<Cut>,
    same_cuts: Vec<(Arr, ParallelCut)>,
    port: Vec<Space>,
    port_statuses: Vec<u64>,
    rust: Vec<S>,
    rust_statuses: Vec<CutStatus>,
    refusals: u64,
}

pub fn ell(n: usize) -> Updates<Ell> {
    let start = Space::new(false, 40.0, vec![0.0; n], diagonal(n, |_| 1.0));
    let made = start.ell();
    updates(start, made, Space::of_ell)
}

pub fn ell_stable(n: usize) -> Updates<EllStable> {
    let start = Space::new(true, 40.0, vec![0.0; n], diagonal(n, |_| 1.0));
    let made = EllStable::new_with_matrix(40.0, Arr::eye(n), Arr::new(n));
    updates(start, made, Space::of_stable)
}

fn updates<S>(start: Space, made: S, space_of: fn(&S) -> Space) -> Updates<S> {
    let cuts = cuts_of(&start);
    let same = |cut: &Cut| (Arr::from(cut.grad.clone()), ParallelCut(cut.b0, cut.b1));
    Updates {
        same_cuts: cuts.iter().map(same).collect(),
        start,
        made,
        space_of,
        cuts,
        port: Vec::new(),
        port_statuses: Vec::new(),
        rust: Vec::new(),
        rust_statuses: Vec::new(),
        refusals: 0,
    }
}

/// Cuts that all succeed: rows of the filter's table, with betas that are parts of tau.
fn cuts_of(start: &Space) -> Vec<Cut> {
    let rows = create_lowpass_case(start.xc.len()).spectrum;
    let mut space = start.clone();
    let mut cuts = Vec::new();
    for k in 0..8 * CUTS {
        let grad = rows[k * 7 % rows.len()].data().to_vec();
        let cut = bias_cut(&space, grad, k % 2 == 1);
        let (status, after) = space.updated(&cut);
        if status == CutStatus::Success {
            space = after;
            cuts.push(cut);
        }
        if cuts.len() == CUTS {
            return cuts;
        }
    }
    panic!("too few cuts succeed");
}

fn bias_cut(space: &Space, grad: Vec<f64>, parallel: bool) -> Cut {
    let (how, b0, b1) = (CENTRAL, 0.0, None);
    let probe = Cut { how, grad, b0, b1 };
    let tau = space.updated(&probe).1.tsq.sqrt();
    Cut {
        how: BIAS,
        grad: probe.grad,
        b0: 0.05 * tau,
        b1: parallel.then_some(0.7 * tau),
    }
}

fn numbers(space: &Space) -> Vec<f64> {
    let mut all = vec![space.kappa, space.tsq];
    let slices = [&space.xc, &space.mq];
    let slices = slices.into_iter().chain(&space.scratch);
    slices.for_each(|part| all.extend(part));
    all
}

impl<S> Pair for Updates<S>
where
    S: SearchSpace<ArrayType = Arr> + Clone,
    ParallelCut: UpdateByCutChoice<S, ArrayType = Arr>,
{
    fn prepare(&mut self, copies: usize) {
        self.port = vec![self.start.clone(); copies];
        self.rust = vec![self.made.clone(); copies];
        self.port_statuses = vec![u64::MAX; copies * CUTS];
        let unknown = || CutStatus::Unknown;
        self.rust_statuses.clear();
        self.rust_statuses.resize_with(copies * CUTS, unknown);
    }

    fn port(&mut self) {
        let n = self.start.xc.len();
        let statuses = self.port_statuses.chunks_mut(CUTS);
        for (space, statuses) in self.port.iter_mut().zip(statuses) {
            for (cut, status) in black_box(&self.cuts).iter().zip(statuses) {
                self.refusals |= port::update(n, cut, space, status);
            }
        }
    }

    fn rust(&mut self) {
        let statuses = self.rust_statuses.chunks_mut(CUTS);
        for (space, statuses) in self.rust.iter_mut().zip(statuses) {
            for (cut, status) in black_box(&self.same_cuts).iter().zip(statuses) {
                *status = space.update_bias_cut(cut);
            }
        }
    }

    fn units(&self) -> f64 {
        CUTS as f64
    }

    fn difference(&self) -> Option<String> {
        let succeed = self.rust_statuses.iter().map(status_word);
        if !succeed.eq(self.port_statuses.iter().copied()) {
            return Some("another status".into());
        }
        let mut both = self.port.iter().zip(&self.rust);
        let parted =
            |(p, r): (&Space, &S)| parting("update", &numbers(p), &numbers(&(self.space_of)(r)));
        refused(self.refusals).or_else(|| both.find_map(parted))
    }
}
