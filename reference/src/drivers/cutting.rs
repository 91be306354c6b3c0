//! The drivers: operations 70 and 71.

use super::run::Run;
use super::walk::{feas, optim, End};
use crate::lists::Case;
use crate::oracles::lowpass::{give_state, take_oracle};
use crate::words::Source;
use ellalgo_rs::cutting_plane::Options;

pub fn cutting_plane_feas(src: &mut Source, case: &mut Case) {
    feas_of(&Run::draw(src, false).started(), case);
}

pub fn feas_of(run: &Run, case: &mut Case) {
    take_oracle(&run.filter, case);
    take_rest(run, case);
    let (end, _) = feas(run);
    give_answer(&end, case);
    give_rest(&end, case);
}

pub fn cutting_plane_optim(src: &mut Source, case: &mut Case) {
    optim_of(&Run::draw(src, true).started(), case);
}

pub fn optim_of(run: &Run, case: &mut Case) {
    take_oracle(&run.filter, case);
    case.take_floats(&[run.filter.gamma]);
    take_rest(run, case);
    let (end, _) = optim(run);
    case.give(if end.halted { 6 } else { 0 });
    give_answer(&end, case);
    case.give_floats(&[end.gamma]);
    give_rest(&end, case);
}

fn take_rest(run: &Run, case: &mut Case) {
    let space = &run.space;
    case.take_floats(&[space.kappa, space.tsq]);
    case.take_floats(&space.xc);
    case.take_floats(&space.mq);
    case.take(run.limit as u64);
    case.take_floats(&[run.tolerance]);
}

fn give_answer(end: &End, case: &mut Case) {
    case.give(end.best.is_some() as u64);
    case.give(end.steps as u64);
    case.give_floats(end.best.as_deref().unwrap_or(&[]));
}

fn give_rest(end: &End, case: &mut Case) {
    give_state(&end.state, case);
    case.give_floats(&[end.space.kappa, end.space.tsq]);
    let parts = [
        &end.space.xc,
        &end.space.mq,
        &end.grad,
        &end.space.scratch[0],
    ];
    parts.iter().for_each(|part| case.give_floats(part));
}

/// The two values that belong to the type.
pub fn default_options(case: &mut Case) {
    let options = Options::default();
    case.give(options.max_iters as u64);
    case.give_floats(&[options.tolerance]);
}
