//! Demand 3 on small tables: the verdict is the same from every legal place of the three cursors
//! and whatever stands in the rest of the state. Operation 130.

use super::cursor::Cursor;
use super::filter::{Filter, State};
use super::lowpass::{Bench, Optim};
use crate::lists::Case;
use crate::words::Source;

const FEASIBLE: u64 = 4;

/// A group or `FEASIBLE`; the peak stands where the verdict says that there is one.
type Verdict = (u64, Option<f64>);

pub fn verdicts(src: &mut Source, case: &mut Case) {
    let (n, rows) = (src.rng.range(2, 4), src.rng.range(1, 6));
    let f = Filter::draw(src, n as usize, rows as usize);
    verdicts_of(src, &f, case);
}

pub fn verdicts_of(src: &mut Source, f: &Filter, case: &mut Case) {
    case.take(f.n as u64);
    for i in [f.rows(), f.nwpass, f.nwstop] {
        case.take_signed(i);
    }
    case.take_floats(&[f.lp_sq, f.up_sq, f.state.sp_sq, f.gamma]);
    case.take_floats(&f.table);
    case.take_floats(&f.x);

    let mut bench = Bench::new(f);
    let fresh = State::fresh(f.bands(), f.state.sp_sq);
    let feas = by_feas(&mut bench, &fresh);
    let optim = by_optim(&mut bench, &fresh, f.gamma);
    let (mut positions, mut agree, mut agree_optim) = (0, 0, 0);
    for cursors in places(f) {
        let state = State { cursors, ..fresh };
        positions += 1;
        agree += (by_feas(&mut bench, &state.littered(src)) == feas) as u64;
        agree_optim += (by_optim(&mut bench, &state.littered(src), f.gamma) == optim) as u64;
    }
    assert_eq!((agree, agree_optim), (positions, positions));
    for w in [positions, feas.0, agree, optim.0, agree_optim] {
        case.give(w);
    }
}

/// Every legal triple of cursors.
fn places(f: &Filter) -> Vec<[Cursor; 3]> {
    let [pass, middle, stop] = f.bands().map(|(lo, hi)| {
        let places = lo - 1..hi;
        places.map(move |cur| Cursor { cur, lo, hi })
    });
    let mut all = Vec::new();
    for a in pass {
        for b in middle.clone() {
            all.extend(stop.clone().map(|c| [a, b, c]));
        }
    }
    all
}

fn by_feas(bench: &mut Bench, state: &State) -> Verdict {
    match bench.assess_feas(state) {
        (Some(cut), _) => (cut.group, None),
        (None, after) => (FEASIBLE, Some(after.fmax)),
    }
}

/// Refusal 6 counts as feasible, without a peak.
fn by_optim(bench: &mut Bench, state: &State, gamma: f64) -> Verdict {
    match bench.assess_optim(state, gamma) {
        (Optim::Broken(cut), _) => (cut.group, None),
        (Optim::Best(..), after) => (FEASIBLE, Some(after.fmax)),
        (Optim::Refused, _) => (FEASIBLE, None),
    }
}
