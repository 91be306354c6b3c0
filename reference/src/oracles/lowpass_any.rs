//! The lowpass oracle with slices of any lengths and a state that may be illegal: operations 113
//! and 114.

use super::cursor::{any_i32, Cursor};
use super::filter::{Filter, State};
use super::lowpass::{give_bands, give_best, give_state, take_rest, Bench, Optim};
use super::tables::Held;
use crate::draw::vector;
use crate::lists::Case;
use crate::words::Source;

/// A call as a caller may make it. The filter's own table and point are not used until the
/// slices held turn out to be right.
pub struct Call {
    pub held: Held,
    pub filter: Filter,
}

impl Call {
    pub fn new(filter: Filter, grad: Vec<f64>) -> Self {
        let slices = vec![filter.table.clone(), filter.x.clone(), grad];
        let held = Held::new(filter.n, slices);
        Call { held, filter }
    }

    fn draw(src: &mut Source) -> Self {
        let filter = Filter::of_any_size(src);
        let grad = vector(src, filter.n);
        let mut call = Call::new(filter, grad);
        if src.rng.coin() {
            call.spoil(src);
            while src.rng.once_in(3) {
                call.spoil(src);
            }
        }
        call
    }

    pub fn spoil(&mut self, src: &mut Source) {
        let which = src.rng.below(3) as usize;
        match src.rng.below(10) {
            0 => self.held.spoil_size(src),
            1 | 2 => self.held.spoil_length(src),
            3 => self.spoil_rows(src),
            4 | 5 => self.spoil_borders(src),
            6 => self.spoil_band(src, which),
            _ => self.filter.state.cursors[which].spoil_place(src),
        }
    }

    /// The stop cursor goes with the rows, so that only their count is wrong.
    fn spoil_rows(&mut self, src: &mut Source) {
        self.held.spoil_rows(src);
        if src.rng.coin() {
            self.filter.state.cursors[2].hi = self.held.rows as i32;
        }
    }

    fn spoil_borders(&mut self, src: &mut Source) {
        let f = &mut self.filter;
        match src.rng.below(6) {
            0 => f.nwpass = -1,
            1 => f.nwpass = f.nwstop.saturating_add(1),
            2 => f.nwstop = f.rows() + 1,
            3 => f.nwstop = f.nwpass.saturating_sub(1),
            4 => f.nwpass = any_i32(src),
            _ => f.nwstop = any_i32(src),
        }
        // Fresh cursors of these bands, so that only the borders are wrong.
        if src.rng.coin() {
            f.state.cursors = f.bands().map(|(lo, hi)| {
                let cur = lo.saturating_sub(1);
                Cursor { cur, lo, hi }
            });
        }
    }

    /// A cursor that is legal by itself, or none, and not of its band.
    fn spoil_band(&mut self, src: &mut Source, which: usize) {
        let cursors = &mut self.filter.state.cursors;
        match src.rng.below(6) {
            0 | 1 => cursors[which].lo = beside(src, cursors[which].lo),
            2 | 3 => cursors[which].hi = beside(src, cursors[which].hi),
            4 => cursors.swap(which, (which + 1) % 3),
            _ => cursors[which].spoil_band(src),
        }
    }

    pub fn refusal(&self) -> u64 {
        match self.held.refusal() {
            0 if !self.bands_are_legal() => 3,
            0 if !self.filter.state.cursors.iter().all(|c| c.place_is_legal()) => 4,
            no => no,
        }
    }

    fn bands_are_legal(&self) -> bool {
        let f = &self.filter;
        let (nwpass, nwstop, rows) = (f.nwpass, f.nwstop, self.held.rows as i32);
        let bands = [(0, nwpass), (nwpass, nwstop), (nwstop, rows)];
        self.held.rows_are_legal()
            && 0 <= nwpass
            && nwpass <= nwstop
            && nwstop <= rows
            && f.state.cursors.map(|c| (c.lo, c.hi)) == bands
    }

    /// The words of both calls; `gamma` stands in the second only.
    fn take(&self, gamma: Option<f64>, case: &mut Case) {
        case.take(self.held.n);
        case.take(self.held.rows);
        self.held.take_lengths(case);
        self.take_settings(case);
        case.take_floats(gamma.as_slice());
        self.held.take_slices(case);
    }

    /// Bands, limits and the oracle's state.
    pub fn take_settings(&self, case: &mut Case) {
        let f = &self.filter;
        case.take_signed(f.nwpass);
        case.take_signed(f.nwstop);
        case.take_floats(&[f.lp_sq, f.up_sq, f.state.sp_sq]);
        f.state.cursors.iter().for_each(|c| c.take(case));
        take_rest(&f.state, case);
    }

    /// The slices are the filter's own once the call is accepted.
    pub fn accept(&mut self) {
        self.filter.n = self.held.n as usize;
        self.filter.table = self.held.slices[0].clone();
        self.filter.x = self.held.slices[1].clone();
    }

    fn give_rest(&self, state: &State, case: &mut Case) {
        case.give_floats(&self.held.slices[2]);
        give_state(state, case);
        give_bands(state, case);
    }
}

fn beside(src: &mut Source, i: i32) -> i32 {
    i.saturating_add(src.rng.pick(&[-1, 1]))
}

pub fn assess_feas(src: &mut Source, case: &mut Case) {
    any_feas_of(Call::draw(src), case);
}

pub fn any_feas_of(mut call: Call, case: &mut Case) {
    call.take(None, case);
    let no = call.refusal();
    case.give(no);
    if no != 0 {
        return call.give_rest(&call.filter.state, case);
    }
    call.accept();
    let (cut, after) = Bench::new(&call.filter).assess_feas(&call.filter.state);
    match cut {
        None => case.give(0),
        Some(cut) => {
            cut.give(case);
            call.held.slices[2] = cut.grad;
        }
    }
    call.give_rest(&after, case);
}

pub fn assess_optim(src: &mut Source, case: &mut Case) {
    any_optim_of(Call::draw(src), case);
}

pub fn any_optim_of(mut call: Call, case: &mut Case) {
    let gamma = call.filter.gamma;
    call.take(Some(gamma), case);
    let no = call.refusal();
    if no != 0 {
        case.give(no);
        case.give_floats(&[gamma]);
        return call.give_rest(&call.filter.state, case);
    }
    call.accept();
    let (answer, after) = Bench::new(&call.filter).assess_optim(&call.filter.state, gamma);
    let gamma = match answer {
        Optim::Refused => {
            case.give(6);
            gamma
        }
        Optim::Broken(cut) => {
            case.give(0);
            cut.give(case);
            call.held.slices[2] = cut.grad;
            gamma
        }
        Optim::Best(grad, beta, best) => {
            case.give(0);
            give_best(&beta, case);
            call.held.slices[2] = grad;
            best
        }
    };
    case.give_floats(&[gamma]);
    call.give_rest(&after, case);
}
