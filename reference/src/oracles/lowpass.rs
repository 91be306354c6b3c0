//! The lowpass oracle's verdicts: operations 42 and 43.

use super::filter::{Filter, State};
use crate::lists::{Case, ABSENT};
use crate::words::{word, Source};
use ellalgo_rs::arr::Arr;
use ellalgo_rs::cutting_plane::{OracleFeas, OracleOptim, ParallelCut};
use ellalgo_rs::oracles::lowpass_oracle::{scan_band_of, LowpassOracle};
use std::mem::take;

pub const PASS: u64 = 0;
pub const STOP: u64 = 1;
pub const MIDDLE: u64 = 2;
pub const SIGN: u64 = 3;

/// A cut, with the group, row and side that broke.
pub struct Cut {
    pub group: u64,
    pub row: Option<usize>,
    pub over: bool,
    pub beta: ParallelCut,
    pub grad: Vec<f64>,
}

impl Cut {
    /// Everything but the gradient.
    pub fn give(&self, case: &mut Case) {
        case.give(1);
        case.give(self.group);
        case.give(self.row.map_or(ABSENT, |row| row as u64));
        case.give(self.over as u64);
        case.give_floats(&[self.beta.0]);
        case.give_optional(self.beta.1);
    }

    fn same_words(&self, other: &(Arr, ParallelCut)) -> bool {
        words(&self.grad) == words(other.0.data())
            && word(self.beta.0) == word(other.1 .0)
            && self.beta.1.map(word) == other.1 .1.map(word)
    }
}

fn words(xs: &[f64]) -> Vec<u64> {
    xs.iter().map(|&x| word(x)).collect()
}

/// What `assess_optim` answers.
pub enum Optim {
    /// Refusal 6: the Rust would look for row −1.
    Refused,
    Broken(Cut),
    /// The best row, and the number that the caller is given.
    Best(Vec<f64>, ParallelCut, f64),
}

/// A filter as the Rust takes it, for any number of runs.
pub struct Bench<'a> {
    filter: &'a Filter,
    spectrum: Vec<Arr>,
    x: Arr,
}

impl<'a> Bench<'a> {
    pub fn new(filter: &'a Filter) -> Self {
        Bench {
            filter,
            spectrum: filter.spectrum(),
            x: Arr::from(filter.x.clone()),
        }
    }

    /// Makes one call of an oracle in this state and gives the state after it.
    fn run<T>(
        &mut self,
        state: &State,
        call: impl FnOnce(&mut LowpassOracle, &Arr) -> T,
    ) -> (T, State) {
        let mut oracle = self.filter.oracle(take(&mut self.spectrum), state);
        let answer = call(&mut oracle, &self.x);
        let after = state.after(&oracle);
        self.spectrum = oracle.spectrum;
        (answer, after)
    }

    pub fn assess_feas(&mut self, state: &State) -> (Option<Cut>, State) {
        let expected = expected_cut(self.filter, &self.spectrum, &self.x, state);
        let (found, after) = self.run(state, |oracle, x| oracle.assess_feas(x));
        check(expected.as_ref(), found.as_ref(), &after);
        (expected, after)
    }

    pub fn assess_optim(&mut self, state: &State, gamma: f64) -> (Optim, State) {
        let sp_sq = gamma;
        let (expected, after) = self.assess_feas(&State { sp_sq, ..*state });
        if expected.is_none() && after.kmax == -1 {
            return (Optim::Refused, *state);
        }
        let mut offered = gamma;
        let ((cut, feasible), after) =
            self.run(state, |oracle, x| oracle.assess_optim(x, &mut offered));
        if feasible {
            check(expected.as_ref(), None, &after);
            return (Optim::Best(cut.0.data().to_vec(), cut.1, offered), after);
        }
        assert_eq!(word(offered), word(gamma));
        check(expected.as_ref(), Some(&cut), &after);
        (Optim::Broken(expected.unwrap()), after)
    }
}

/// The cut that the scans alone lead to. It shows which group broke, and at which row and side.
pub fn expected_cut(f: &Filter, spectrum: &[Arr], x: &Arr, state: &State) -> Option<Cut> {
    let [pass, middle, stop] = state.cursors;
    let scans = [
        (PASS, pass, f.lp_sq, Some(f.up_sq)),
        (STOP, stop, 0.0, Some(state.sp_sq)),
        (MIDDLE, middle, 0.0, None),
    ];
    for (group, cursor, lower, upper) in scans {
        let (mut rr, band) = (cursor.made(), (cursor.lo, cursor.hi));
        let (found, ..) = scan_band_of(spectrum, x, &mut rr, band, lower, upper);
        if let Some((row, val, over)) = found {
            let a = spectrum[row].data();
            let (grad, beta) = match upper {
                Some(u) if over => (a.to_vec(), ParallelCut(val - u, Some(val - lower))),
                _ => (negated(a), ParallelCut(lower - val, upper.map(|u| u - val))),
            };
            return Some(Cut {
                group,
                row: Some(row),
                over,
                beta,
                grad,
            });
        }
    }
    (x[0] < 0.0).then(|| sign_cut(x))
}

fn sign_cut(x: &Arr) -> Cut {
    let mut grad = vec![0.0; x.len()];
    grad[0] = -1.0;
    Cut {
        group: SIGN,
        row: None,
        over: false,
        beta: ParallelCut(-x[0], None),
        grad,
    }
}

fn negated(row: &[f64]) -> Vec<f64> {
    row.iter().map(|a| -a).collect()
}

/// The scans and the oracle must show the same.
pub fn check(expected: Option<&Cut>, found: Option<&(Arr, ParallelCut)>, after: &State) {
    match (expected, found) {
        (None, None) => assert!(!after.more_alt),
        (Some(cut), Some(found)) => {
            assert!(cut.same_words(found));
            assert_eq!(after.more_alt, cut.group != SIGN);
            if let Some(row) = cut.row {
                let at = [0, 2, 1][cut.group as usize]; // the group's cursor
                assert_eq!(after.cursors[at].cur, row as i32);
                assert_eq!(after.idx[at], row as i32);
            }
        }
        _ => panic!("the scans and the oracle differ"),
    }
}

pub fn take_state(state: &State, case: &mut Case) {
    state.cursors.iter().for_each(|c| case.take_signed(c.cur));
    take_rest(state, case);
    case.take_floats(&[state.sp_sq]);
}

/// The part of a state that no call reads.
pub fn take_rest(state: &State, case: &mut Case) {
    state.idx.iter().for_each(|&i| case.take_signed(i));
    case.take_floats(&[state.fmax]);
    case.take_signed(state.kmax);
    case.take(state.more_alt as u64);
}

pub fn give_state(state: &State, case: &mut Case) {
    state.cursors.iter().for_each(|c| case.give_signed(c.cur));
    state.idx.iter().for_each(|&i| case.give_signed(i));
    case.give_floats(&[state.fmax]);
    case.give_signed(state.kmax);
    case.give(state.more_alt as u64);
    case.give_floats(&[state.sp_sq]);
}

/// The bands that the cursors have at exit, for calls that are told them.
pub fn give_bands(state: &State, case: &mut Case) {
    for c in &state.cursors {
        case.give_signed(c.lo);
        case.give_signed(c.hi);
    }
}

pub fn take_oracle(f: &Filter, case: &mut Case) {
    case.take(f.n as u64);
    for i in [f.rows(), f.nwpass, f.nwstop] {
        case.take_signed(i);
    }
    case.take_floats(&[f.lp_sq, f.up_sq, f.state.sp_sq]);
    case.take_floats(&f.table);
    take_state(&f.state, case);
}

pub fn assess_feas(src: &mut Source, case: &mut Case) {
    feas_of(&Filter::of_any_size(src), case);
}

pub fn feas_of(f: &Filter, case: &mut Case) {
    take_oracle(f, case);
    case.take_floats(&f.x);
    let (cut, after) = Bench::new(f).assess_feas(&f.state);
    match cut {
        None => case.give(0),
        Some(cut) => {
            cut.give(case);
            case.give_floats(&cut.grad);
        }
    }
    give_state(&after, case);
}

pub fn assess_optim(src: &mut Source, case: &mut Case) {
    optim_of(&Filter::of_any_size(src), case);
}

pub fn optim_of(f: &Filter, case: &mut Case) {
    take_oracle(f, case);
    case.take_floats(&f.x);
    case.take_floats(&[f.gamma]);
    let (answer, after) = Bench::new(f).assess_optim(&f.state, f.gamma);
    let gamma = match answer {
        Optim::Refused => return case.give(3),
        Optim::Broken(cut) => {
            cut.give(case);
            case.give_floats(&cut.grad);
            f.gamma
        }
        Optim::Best(grad, beta, gamma) => {
            give_best(&beta, case);
            case.give_floats(&grad);
            gamma
        }
    };
    case.give_floats(&[gamma]);
    give_state(&after, case);
}

/// Everything but the gradient.
pub fn give_best(beta: &ParallelCut, case: &mut Case) {
    case.give(2);
    case.give_floats(&[beta.0]);
    case.give_optional(beta.1);
}
